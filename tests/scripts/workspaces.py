"""Tries bzlq in workspaces: answers from their folders, after edits, behind links, and of several runs at once."""
import os
from unittest import mock

from bzlq.cache import readings

LIB = {
    "WORKSPACE": "", "a/BUILD": 'load("@rules_cc//cc:defs.bzl", "cc_library")\ncc_library(name = "a", srcs = ["lib/x.c"], deps = ["//a b:c"])\n',
    "a/lib/x.c": "", "a b/BUILD": 'filegroup(name = "c")\n', "BUILD": 'filegroup(name = "all_of_it", srcs = ["//a"])\n', "deep/README": "", "a/lib/new.c": "",
}
# the folder, the words, and what is written to both outputs, and the status
ASKED = (
    ("", "//...", "//:all_of_it\n//a b:c\n//a:a\n", "", 0),
    ("a", ":all", "//a:a\n", "", 0),
    ("a", "query ... --keep_going", "//a:a\n", "", 0),
    ("a/lib", "'rdeps(//..., x.c, 1) - x.c'", "//a:a\n", "", 0),
    ("a/lib", "--output=label_kind x.c", "source file //a:lib/x.c\n", "", 0),
    ("", "'deps(a)'", "//a b:c\n//a:a\n//a:lib/x.c\n", "", 0),
    ("", "'deps(a:a) ^ \"a b:c\"'", "//a b:c\n", "", 0),
    ("a", "'let v = :a in kind(cc_library, deps($v, 2)) + set(:a)'", "//a:a\n", "", 0),
    ("a b", "'allpaths(../a, :c)'", "//a b:c\n//a:a\n", "", 0),
    ("deep", "':x'", "", "bq: Q6 NoSuchPackage: //deep:x: the directory deep is no package: it has no BUILD file\n", 2),
    ("a", "../../x", "", "bzlq: ../../x is not in the workspace\n", 2),
    ("a", "'kind(cc_libary, ...)'", "", "bzlq: nothing matches: no rule of the workspace has a kind like 'cc_libary' (did you mean 'cc_library'?)\n", 0),
    ("a", "--jbos 3 :a", "", "bzlq: there is no option --jbos (did you mean '--jobs'?)\n", 2),
    ("a", "--raw --dir .. //a:a", "", "//:BUILD:1: F79 DanglingLabel //a:a\n//a:BUILD:1: F32 NoPackage @rules_cc//cc:defs.bzl\nbq: Q5 NoSuchTarget //a:a\n", 2),
    ("a", "", "", "bzlq: no query: bzlq //... lists all rules, and bzlq --help says more\n", 2),
)


def folders(bench):
    """Answers of bzlq from the folders of a workspace."""
    bench.lay_out("ws", LIB)
    bench.compare("the first run", bench.run("bzlq //a:a", "ws"), ("//a:a\n", "bzlq: reading the workspace\n", 0))
    bench.compare_calls(ASKED, "ws")
    bench.compare("no workspace", bench.run("bzlq //...")[2], 2)
    bench.compare("a program that isn't there", bench.run("bzlq --program none //...", "ws"), ("", "bzlq: no program none\n", 2))
    bench.compare("a cache that can't be written", bench.run("XDG_CACHE_HOME=/proc/x bzlq //...", "ws")[2], 2)


def reading(bench):
    """How far the reading is stands on a terminal; and no file of a real workspace takes too many steps."""
    bench.lay_out("ws", LIB)
    bench.run("bzlq --clean", "ws")
    with mock.patch.object(readings, "PAUSE", -1):
        found, status = bench.on_terminal(["//a:a"], "ws")
        piped = bench.run("bzlq --clean; bzlq //a:a", "ws")
    lines = ["bzlq: reading the workspace", *(f"bzlq: {it} of 3 BUILD and .bzl files" for it in (1, 2, 3)), "//a:a"]
    bench.compare("how far it is, on a terminal", (found.decode().splitlines(), status), (lines, 0))
    bench.compare("and in a pipe", piped, ("//a:a\n", "bzlq: reading the workspace\n", 0))
    bench.lay_out("steps", {"WORKSPACE": "", "BUILD": 'N = len([1 for m in range(1500) for n in range(1000) if False])\nfilegroup(name = "n%d" % N)\n'})
    bench.compare("more than 1,000,000 steps", bench.run("bzlq //...", "steps"), ("//:n0\n", "bzlq: reading the workspace\n", 0))


def edits(bench):
    """What changed counts at once: a BUILD file, a file's name, a schema; and nothing is made anew where nothing changed."""
    made = "bzlq: reading the workspace\n"
    run = lambda query: bench.run(f"bzlq '{query}'", "ws")  # noqa: E731
    steps = (
        ({}, "//a:*", "//a:BUILD\n//a:a\n//a:lib/x.c\n", ""),
        ({"a/BUILD": LIB["a/BUILD"].replace('"lib/x.c"', '"lib/y.c"')}, "//a:*", "//a:BUILD\n//a:a\n//a:lib/y.c\n", ""),
        ({"a/BUILD": LIB["a/BUILD"].replace('["lib/x.c"]', 'glob(["lib/*.c"])')}, "//a:* - //a:BUILD", "//a:a\n//a:lib/new.c\n//a:lib/x.c\n", ""),
        ({"a/lib/z.c": ""}, "//a:* - //a:BUILD", "//a:a\n//a:lib/new.c\n//a:lib/x.c\n//a:lib/z.c\n", ""),
        ({"a/lib/z.c": "int z;\n"}, "//a:a", "//a:a\n", ""),
        ({"a/m.bzl": 'def m():\n    native.filegroup(name = "m")\n', "a/BUILD": 'load(":m.bzl", "m")\nm()\n'}, "//a:all", "//a:m\n", made),
        ({"a/m.bzl": 'def m():\n    native.filegroup(name = "n")\n'}, "//a:all", "//a:n\n", made),
        ({"a/m.bzl": 'def m():\n    f = lambda: 0\n'}, "//a:BUILD", "//a:BUILD\n", made + "bzlq: targets may be missing: 1 call of m (a/m.bzl:1: bq leaves out "
         "lambda in line 2) may declare targets and declares none; 1 package is empty: //a\n"),
        ({"rules.schema": "rule filegroup\n", "a/BUILD": 'filegroup(name = "s")\n'}, "//a:all", "//a:s\n", ""),
    )
    for files, query, answer, errors in steps:
        for path, text in files.items():
            with open(f"{bench.room}/ws/{path}", "w", encoding="utf-8") as file:
                file.write(text)
        found = run(query)
        said = "".join(line for line in found[1].splitlines(True) if line.startswith("bzlq:"))
        bench.compare(f"after an edit of {', '.join(files) or 'nothing'}", (found[0], said), (answer, errors))
        bench.compare(f"the second time, after an edit of {', '.join(files) or 'nothing'}", run(query)[0], answer)


def links(bench):
    """Links to folders: what changes there counts, and one that leads back ends nothing."""
    bench.lay_out("ws", {"WORKSPACE": "", "a/BUILD": "", "a b/é/x.c": ""})
    bench.lay_out("out", {"pkg/BUILD": 'filegroup(name = "x")\n', "ws2/BUILD": ""})
    for path, to in (("ws/link", "../out"), ("ws/a/back", ".."), ("ws/bazel-out", "../out")):
        os.symlink(to, f"{bench.room}/{path}")
    bench.compare("a link", bench.run("bzlq //...", "ws"), ("//link/pkg:x\n", "bzlq: reading the workspace\n", 0))
    with open(f"{bench.room}/out/pkg/BUILD", "w", encoding="utf-8") as file:
        file.write('filegroup(name = "y")\n')
    bench.compare("an edit in a linked folder", bench.run("bzlq ...", "ws/link/pkg")[::2], ("", 2))
    bench.compare("an edit in a linked folder, from the root", bench.run("bzlq //...", "ws")[::2], ("//link/pkg:y\n", 0))
    bench.compare("the same", bench.run("bzlq --output=label_kind //...", "ws"), ("filegroup rule //link/pkg:y\n", "", 0))
    with open(f"{bench.room}/ws/a/x\udcff.c", "w", encoding="utf-8"):
        pass
    said = "bzlq: reading the workspace\nbzlq: a name is not UTF-8: b'x\\xff.c'\n"
    bench.compare("a name that is no UTF-8", bench.run("bzlq //...", "ws"), ("", said, 2))


def at_once(bench):
    """Several runs over a cache without anything: each has the whole answer."""
    bench.lay_out("ws", {**LIB, **{f"p{n}/BUILD": LIB["a/BUILD"] for n in range(50)}})
    bench.run("bzlq --clean", "ws")
    command = "for n in 1 2 3 4; do bzlq //... > ../answer$n 2> ../errors$n & done; wait; cat ../answer?; cat ../errors? >&2"
    found = bench.run(command, "ws")
    bench.compare("four runs at once", (found[0].count("\n"), found[1]), (4 * 53, "bzlq: reading the workspace\n"))


def check(bench):
    """Tries all of it."""
    for part in (folders, reading, edits, links, at_once):
        part(bench)
