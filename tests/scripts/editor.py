"""Tries examples/editor: each answer beside a run over a directory in which the buffers are saved; and the process behind it, which follows files
(bzlq/facts/loaded.py)."""
import json
import os

from bench import ROOT
from bzlq.bq import BqError
from bzlq.facts import loaded
from bzlq.workspace.bundle import written

FILES = {"WORKSPACE": "", "rules.schema": "rule lib\nattr srcs label_list\n", "a/BUILD": 'load("//t:m.bzl", "m")\nm("x")\n', "a/s.c": "", "b/BUILD": 'lib(name = "y", srcs = ["//a:x"])\n',
         "t/BUILD": "", "t/m.bzl": 'def m(name):\n    native.lib(name = name, srcs = native.glob(["*.c"]))\n'}
QUERY = "deps(//...) + //...:*"
# what an editor says: the path and the text of a buffer, which is closed where there is none
STEPS = (
    ("a/BUILD", 'load("//t:m.bzl", "m")\nm("x")\nm("z")\n'), ("t/m.bzl", 'def m(name):\n    native.lib(name = name, srcs = native.glob(["*.c"]) + ["//b:y"])\n'),
    ("a/new.c", "int x;\n"), ("a/new.c", "int y;\n"), ("c/BUILD", "lib(name = 1 // 0)"), ("a/BUILD", "lib(\n=== a/BUILD\n"), ("a/BUILD", None), ("c/BUILD", None), ("t/m.bzl", None), ("a/new.c", None),
    ("rules.schema", "rule other\n"), ("rules.schema", None), ("b", ""), ("b", None),
)
BARE = {"WORKSPACE": "", "a/BUILD": 'load("@r//:r.bzl", "lib")\nlib(name = "x", srcs = ["s.c"], env = {"A": "1"})\n', "a/s.c": "", "b/BUILD": 'load("@r//:r.bzl", "lib")\nlib(name = "y")\n',
        "t/BUILD": "", "t/m.bzl": 'S = struct(a = 1)\ndef m(name):\n    native.filegroup(name = name)\n', "c/BUILD": 'load("//t:m.bzl", "m")\nm("c")\n'}


def asked(bench, folder, *requests):
    """What the co-process answers."""
    given = "".join(f"{it if isinstance(it, str) else json.dumps(it)}\n" for it in requests)
    output, errors, status = bench.run(f"{ROOT}/examples/editor/co_process.py", folder, given.encode())
    bench.compare("the end of the co-process", (errors, status), ("", 0))
    return [json.loads(line) for line in output.splitlines()]


def do(word, **more):
    """A request."""
    return {"do": word, **more}


def saved(bench, buffers):
    """What a run from nothing says of files with the buffers among them: the answer, and the fault lines; or the error."""
    bench.lay_out("saved", {path: text for path, text in {**FILES, **buffers}.items() if not any(it.startswith(f"{path}/") for it in FILES)})
    output, errors, status = bench.run(f"bq --dir saved '{QUERY}'")
    return (output.splitlines(), errors.splitlines()) if status != 2 else errors.removeprefix("bq: ").rstrip("\n")


def line_of(fault):
    """The fault line of an object."""
    package, _, name = fault["file"].rpartition("/")
    return f"//{package}:{name}:{fault['line']}: {fault['number']} {fault['name']} {fault['detail']}".rstrip()


def buffers(bench):
    """Buffers that are opened, changed and closed: each answer is that of a run over a directory where they are saved."""
    bench.lay_out("ws", FILES)
    requests, wanted, open_ones = [], [], {}
    for path, text in STEPS:
        open_ones = {**open_ones, path: text} if text is not None else {it: other for it, other in open_ones.items() if it != path}
        requests += [do("change", path=path, text=text) if text is not None else do("close", path=path), do("query", query=QUERY)]
        # (a file where there is a directory, which no disk has)
        wanted.append("E4 Bundle" if "b" in open_ones else saved(bench, open_ones))
    found = asked(bench, "ws", *requests)
    for (path, text), answer, it in zip(STEPS, found[1::2], wanted, strict=True):
        given = answer.get("error") or (answer["answer"], [line_of(fault) for fault in answer["faults"]])
        bench.compare(f"a buffer {path}, {text!r}", given, it)
    bench.compare("what has no answer", found[0::2], [{"id": None}] * len(STEPS))
    bench.compare("nothing is written", bench.run("find . -type f | sort", "ws")[0], "".join(f"./{it}\n" for it in sorted(FILES)))


def requests(bench):
    """Requests that are refused, absolute paths, and files that are saved meanwhile."""
    bench.lay_out("ws", FILES)
    place = f"{bench.room}/ws"
    os.symlink(place, f"{bench.room}/link")
    found = asked(bench, "ws/a", "{", "[]", do("none"), do("open", path="a/BUILD"), do("open", path="../x", text=""), do("query", query="deps("), do("query", query="=== reload"),
                  {"id": 7, **do("open", path=f"{place}/a/BUILD", text="none()")}, {"id": "x", **do("faults")}, do("open", path=f"{bench.room}/link/a/BUILD", text=""), do("faults"))
    bench.compare("refusals", ["error" in it for it in found[:7]], [True] * 7)
    bench.compare("a query that is refused", found[5], {"id": None, "error": "Q1 Syntax"})
    faults = [{"file": "a/BUILD", "line": 1, "number": "F20", "name": "UnknownName", "detail": "none"}, {"file": "b/BUILD", "line": 1, "number": "F79", "name": "DanglingLabel", "detail": "//a:x"}]
    bench.compare("paths in full", found[7:], [{"id": 7}, {"id": "x", "faults": faults, "notes": []}, {"id": None}, {"id": None, "faults": faults[1:], "notes": []}])
    bench.compare("no workspace", bench.run(f"{ROOT}/examples/editor/co_process.py /")[::2], ("", 2))
    bench.compare("no program", bench.run(f"BZLQ_BQ=none {ROOT}/examples/editor/co_process.py ws"), ("", "no program none\n", 2))


def overlay(bench):
    """A workspace with another repository: what was made up or left out is said, and what a buffer may have faults for."""
    bench.lay_out("bare", BARE)
    text = BARE["a/BUILD"].replace('"x"', '"z"').replace(', env = {"A": "1"}', "")
    query = do("query", query="//a:all")
    found = asked(bench, "bare", query, do("open", path="a/BUILD", text=text), query, do("open", path="b/BUILD", text=BARE["b/BUILD"]), do("faults"), do("close", path="a/BUILD"), query)
    bench.compare("over an overlay", [it.get("answer") for it in found], [["//a:x"], None, ["//a:z"], None, None, None, ["//a:x"]])
    lost = "1 of 1 targets of this answer is an approximation: kind made up 1, dict left out 1"
    bench.compare("what was made up", [it.get("notes") for it in found[::6]], [[lost]] * 2)
    new = "not saved: {}; the rules and what stands for other repositories are those of the saved files".format
    bench.compare("a buffer that isn't saved", [found[2]["notes"][0], found[4]["notes"]], [new("a/BUILD"), [new("a/BUILD")]])
    found = asked(bench, "bare", do("open", path="t/m.bzl", text=BARE["t/m.bzl"] + "\n"), do("faults"), do("change", path="t/m.bzl", text=BARE["t/m.bzl"] + "x = 1\n"), do("faults"))
    fault, more = {"file": "t/m.bzl", "line": 1, "number": "F20", "name": "UnknownName", "detail": "struct"}, "may have faults for what the overlay leaves out of the saved files: t/m.bzl"
    bench.compare("what a buffer may have faults for", [(fault in it["faults"], it["notes"]) for it in found[1::2]], [(True, [more]), (True, [new("t/m.bzl"), more])])


def follows(bench):
    """The process itself: edits that are refused and taken back, many at once, and an end in between."""
    def bundle(files):
        bench.lay_out("bundle", {"text": b"".join(written(path, text.encode()) for path, text in sorted(files.items()))})
        return f"{bench.room}/bundle/text"

    with loaded.Loaded(bench.program) as process:
        process.take(bundle(FILES))
        first = process.workspace
        bench.compare("at first", sorted(process.facts().modules), ["//a:BUILD", "//b:BUILD", "//t:BUILD", "//t:m.bzl"])
        for files, wanted in (({"rules.schema": "x\n"}, "E6 Schema 1"), ({"c/BUILD": 'lib(name = "c")\n'}, ["//a:x", "//b:y", "//c:c"]), ({"a/BUILD": "1 // 0\n"}, ["//b:y"]), ({}, ["//a:x", "//b:y"])):
            try:
                process.take(bundle({**FILES, **files}))
                found = process.workspace.query("//...")
            except BqError as error:
                found = f"{error}"
            bench.compare(f"with {files}", found, wanted)
        bench.compare("one process", process.workspace is first, True)
        many = {f"m{it}/BUILD": f'lib(name = "{it}")\n' for it in range(loaded.MOST + 1)}
        process.take(bundle({**FILES, **many}))
        bench.compare("many edits", (len(process.workspace.query("//...")), process.workspace is first), (loaded.MOST + 3, False))
        second = process.workspace
        second._process.kill()
        process.take(bundle({**FILES, **many, "n/BUILD": 'lib(name = "n")\n'}))
        bench.compare("after an end", (len(process.workspace.query("//...")), process.workspace is second), (loaded.MOST + 4, False))


def check(bench):
    """Tries all of it."""
    for part in (buffers, requests, overlay, follows):
        part(bench)
