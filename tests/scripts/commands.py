"""Tries the words of bzlq: facts, many queries and the bundle of a workspace with other repositories, and the forms of an
answer."""
import json
import os
import re
import subprocess

from bench import ROOT
from bzlq import bq
from hint_rows import ROWS
from mistakes import MISTAKES, WORKSPACE

FILES = {
    "WORKSPACE": "", "BUILD": 'filegroup(name = "all_of_it", srcs = ["//a"])\n',
    "a/BUILD": 'load("@rules_cc//cc:defs.bzl", "cc_library")\ncc_library(name = "a", srcs = ["lib/x.c"], deps = ["//a b:c"])\n',
    "a/lib/x.c": "", "a b/BUILD": 'filegroup(name = "c")\n', "f/BUILD": "1 // 0\n",
}
FAULT = "f/BUILD:1:1: F42 DivZero: 1 // 0\n"
GRAPH = 'digraph targets {\n  node [shape=box]\n  "//a b:c"\n  "//a:a"\n  "//a:a" -> "//a b:c"\n  "//a:a" -> "//a:lib/x.c"\n  "//a:lib/x.c"\n}\n'
# the folder, the words, what is written to standard output, and the status
ASKED = (
    ("a", "--output package 'deps(//:all_of_it)'", "\na\na b\n", 3),
    ("a", "--output=location 'deps(:a)'", "../a b/BUILD:1: filegroup rule //a b:c\nBUILD:2: cc_library rule //a:a\nlib/x.c:1: source file //a:lib/x.c\n", 3),
    ("", "--output graph 'deps(//a)'", GRAPH, 3),
    ("a", "--output jsonl lib/x.c", '{"target":"//a:lib/x.c","kind":"source file","file":"a/lib/x.c"}\n', 3),
    ("a", "--queries ../queries.txt", "=== 3 1 rdeps(//..., //a:lib/x.c, 1) - //a:lib/x.c\n//a:a\n=== 2 1 deps(\nbq: Q1 Syntax\n", 2),
)


def workspace(bench):
    """A workspace with another repository, and one fault."""
    bench.lay_out("ws", {**FILES, "queries.txt": "rdeps(//..., lib/x.c, 1) - lib/x.c\n# a comment\n\ndeps(\n"})
    bench.run("bzlq //a:a", "ws")


def answers(bench):
    """Forms, facts and queries, from folders of the workspace."""
    workspace(bench)
    bench.compare_calls(ASKED, "ws")
    for query, count in (("", 9), ("//a:*", 3)):  # (two are the BUILD files of repositories of the overlay)
        found = bench.run(f"bzlq --facts {query}", "ws")
        kinds = [next(iter(json.loads(line))) for line in found[0].splitlines()]
        bench.compare(f"facts {query}", (kinds.count("fault"), kinds.count("target"), found[1:]), (1, count, (FAULT, 3)))
    bench.compare("the bundle's path", bench.run('bq --bundle "$(bzlq --bundle-path)" //a:a', "ws/a")[::2], ("//a:a\n", 3))
    bench.compare("a word that leads out", bench.run("bzlq --queries -", "ws", b"../x\n//a\n")[0],
                  "=== 2 1 ../x\nbq: Q3 LeftOut ../x\n=== 3 1 //a\n//a:a\n")
    bench.compare("no such file of queries", bench.run("bzlq --queries none", "ws"), ("", "bzlq: none: No such file or directory\n", 2))


WORDS = (
    ("a", "why :a lib/x.c", "BUILD:2: //a:a -> //a:lib/x.c (srcs)\n", 3),
    ("a", "owner lib/x.c", "//a:a\n", 3),
    ("a", "users :a", "../BUILD:1: //:all_of_it -> //a:a (srcs)\n", 3),
    ("a", "query :a", "//a:a\n", 3),
    ("a", "facts lib/x.c | grep '^{\"target\"'", '{"target":"//a:lib/x.c","kind":"source file","file":"a/lib/x.c"}\n', 0),
    ("", "bundle | bq //a:a", "//a:a\n", 3),
    ("", "bundle 'a b' | bq //:c", "//:c\n", 0),
    ("", "lint f/BUILD", FAULT, 1),
    ("", "lint a/BUILD", "", 0),
    ("f", "lint BUILD ../BUILD", FAULT.removeprefix("f/"), 1),
)


FORMS = "it takes label, label_kind, package, location, graph, jsonl\n"
# what is refused in one line
REFUSED = (
    ("--output xml //a", f"bzlq: there is no --output xml: bzlq facts has kinds, attributes and edges as JSON; {FORMS}"),
    ("--output=grap //a", f"bzlq: there is no --output grap (did you mean 'graph'?); {FORMS}"),
    ("--output location --queries -", "bzlq: --output location goes with one query: many are answered as label or label_kind\n"),
    ("--jobs 0 //a", "bzlq: --jobs takes a number of 1 to 256, and not '0'\n"),
    ("--max-steps=many //a", "bzlq: --max-steps takes a number of 1 to 1,000,000,000, and not 'many'\n"),
    *((f"{it} //a", f"bzlq: there is no {it}: bzlq answers questions about what BUILD files declare, and builds nothing (`bzlq query {it}` asks for a target of that name)\n")
      for it in ("build", "test", "cquery", "aquery", "run", "info")),
)


def words(bench):
    """The words beside a query."""
    bench.compare_calls(WORDS, "ws")
    bench.compare("bzlq queries", bench.run("echo :a | bzlq queries", "ws/a")[0], "=== 3 1 //a:a\n//a:a\n")
    edits = b'=== put 25 f/BUILD\n:a\nfilegroup(name = ":a")\n=== put x f\n:a\n=== put 23 f/BUILD\nfilegroup(name = "f")\n#\n=== reload\n//f\n=== facts ../none:a\n=== remove f/BUILD\n=== reload\n=== put 99 f\n:a\n'
    answers = ("=== 2 1 === put x f\nbq: E4 Bundle\n=== 3 1 //a:a\n//a:a\n=== 0 0 === reload\n=== 0 1 //f\n//f:f\n=== 2 1 === facts //none:a\nbq: Q6 NoSuchPackage //none:a\n"
               "=== 0 0 === reload\n")
    bench.compare("edits by bzlq queries", bench.run("bzlq queries", "ws/a", edits)[::2], (answers, 2))
    for call, errors in REFUSED:
        bench.compare(f"bzlq {call}", bench.run(f"bzlq {call}", "ws"), ("", errors, 2))
    bench.compare("bzlq version", bench.run("bzlq version", "ws")[0][:3], "bq ")
    bench.compare("bzlq help", [bench.run(f"bzlq help {it}")[2] for it in ("", "why", "ask", "lint", "visible")], [0] * 5)
    bench.compare("bzlq lint without git", bench.run("GIT_DIR=none bzlq lint", "ws"), ("", "bzlq: git doesn't say which files have changed: name the files\n", 2))
    bench.run("git init -q; git add -A; git -c user.name=x -c user.email=x commit -qm x; echo >> f/BUILD", "ws")
    bench.compare("bzlq lint of what has changed", bench.run("bzlq lint", "ws")[::2], (FAULT, 1))
    for files, errors, status in (("none/BUILD", "bzlq: none/BUILD: no such file\n", 2), ("a/lib/x.c", "bzlq: a/lib/x.c is neither a BUILD file nor a .bzl file\n", 0),
                                  ("/dev/null", "bzlq: /dev/null: no such file\n", 2), ("--all", "bzlq: there is no option --all of lint: it takes files (after -- also one of such a name)\n", 2)):
        bench.compare(f"bzlq lint {files}", bench.run(f"bzlq lint {files}", "ws"), ("", errors, status))
    for name in ("why", "affected", "stubs", "hints"):
        bench.compare(f"bzlq {name} --help", bench.run(f"bzlq {name} --help")[1:], ("", 0))


def lint(bench):
    """A part of a workspace has the faults of its BUILD files that the whole has; a hook of git, and what editors match."""
    for what, (files, _, _) in MISTAKES.items():
        if files:
            bench.lay_out("lint", {**WORKSPACE, **files})
            whole = bench.run("bzlq --all //... 2>&1 >/dev/null | grep -E '^(app|log|tools)/BUILD:' | sort", "lint")[0]
            bench.compare(f"bzlq lint, {what}", bench.run("bzlq lint app/BUILD log/BUILD tools/BUILD | sort", "lint")[0], whole)
    bench.lay_out("lint", WORKSPACE)
    git = "git -c user.name=x -c user.email=x -c core.hooksPath=.git/hooks -c commit.gpgsign=false"
    bench.run(f"git init -q; cp ../examples/pre-commit/pre-commit .git/hooks/; git add -A; {git} commit -qm x", "lint")
    bench.run("echo 'filegroup(name = \"x\", dta = [])' >> app/BUILD; git add -A", "lint")
    found = bench.run(f"{git} commit -qm y", "lint")
    bench.compare("a commit with a fault", ((found[0] + found[1]).partition(":8:")[0], bench.run("git log --format=%s", "lint")[0]), ("app/BUILD", "x\n"))
    bench.run(f"git checkout -q HEAD -- . && echo '# x' >> app/BUILD && git add -A && {git} commit -qm z", "lint")
    bench.compare("a commit without one", bench.run("git log --format=%s", "lint")[0], "z\nx\n")
    with open(f"{ROOT}/docs/TOOLS.md", encoding="utf-8") as page, open(f"{ROOT}/examples/ci/matcher.json", encoding="utf-8") as matcher:
        patterns = [json.loads(f'"{it}"') for it in re.findall(r'"regexp": "(.*?)"[,\n]', page.read() + matcher.read())]
    lines = [it for number, rows in ROWS.items() for it in rows if re.match(rf".*: {number} ", it)]
    bench.compare("what editors match", [(len(patterns), it) for it in lines for pattern in patterns if bool(re.match(pattern, it)) == it.startswith("bq:")], [])


SEEN = {
    "WORKSPACE": "", "a/f.c": "", "a/e.c": "", "a/e2.c": "", "h/p.c": "", "h/m.bzl": 'V = ["//b:__pkg__"]\ndef exported():\n    native.exports_files(["z.c"])\n',
    "a/BUILD": 'package(default_visibility = ["//b:g", "//c:__pkg__"])\nfilegroup(name = "x", srcs = ["f.c"])\nfilegroup(name = "y", visibility = ["//visibility:private"])\n'
               'filegroup(name = "z", visibility = ["//visibility:public"])\nfilegroup(name = "w", visibility = ["//c:__subpackages__", "//b:g"])\n'
               'exports_files(["e.c"], visibility = ["//b:__pkg__"])\nexports_files(["e2.c"])\ngenrule(name = "gen", outs = ["o.c"], cmd = "x")\nalias(name = "al", actual = ":y")\n',
    "b/BUILD": 'package_group(name = "g", packages = ["//c/...", "-//c/d"], includes = [":h"])\npackage_group(name = "h", packages = ["//d"])\nfilegroup(name = "q", srcs = ["//a:y"])\n',
    "c/BUILD": 'filegroup(name = "q", srcs = ["//a:x", "//a:e.c", "//a:e2.c", "//a:w", "//a:z"])\n',
    "c/d/BUILD": 'filegroup(name = "q", srcs = ["//a:x", "//a:e2.c", "//a:o.c", "//a:f.c", "//a:w", "//h:x"])\n',
    "h/BUILD": 'load(":m.bzl", "V")\nload("@r//:m.bzl", "suite")\npackage(default_visibility = V + ["//%s:__pkg__" % n for n in ["e", "i"]])\nfilegroup(name = "x")\nsuite(name = "t")\n'
               'package_group(name = "g", packages = ["//" + n for n in ["i", "j"]])\nfilegroup(name = "y", visibility = [":g"])\nexports_files(["%s.c" % n for n in ["p"]], ["//visibility:private"])\n',
    "i/BUILD": 'filegroup(name = "i", srcs = ["//h:x", "//h:y", "//h:p.c", "//h:t"])\n',
    "k/BUILD": 'config_setting(name = "c", values = {"cpu": "x"})\nconfig_setting(name = "d", values = {"cpu": "x"}, visibility = ["//visibility:private"])\n',
    "l/BUILD": 'load("//h:m.bzl", "exported")\nexported()\nfilegroup(name = "l", srcs = select({"//k:c": ["l.c"], "//k:d": []}))\n', "l/l.c": "", "l/z.c": "",
    "m/BUILD": 'filegroup(name = "m", srcs = ["//l:z.c", "//l:l", "@r//x:y"])\n',
}
DEFAULT = "visible to //b:g, //c:__pkg__ by the package's default_visibility"
BREACHES = (
    "b/BUILD:3: //b:q -> //a:y (srcs): private (a/BUILD:3)\n" + "".join(f"c/d/BUILD:1: //c/d:q -> //a:{it} (srcs): {DEFAULT} (a/BUILD:1)\n" for it in ("f.c", "o.c", "x"))
    + "c/d/BUILD:1: //c/d:q -> //h:x (srcs): visible to //b:__pkg__, //e:__pkg__, //i:__pkg__ by the package's default_visibility (h/BUILD:3)\n"
    + "c/BUILD:1: //c:q -> //a:e.c (srcs): visible to //b:__pkg__ (a/BUILD:6)\ni/BUILD:1: //i:i -> //h:p.c (srcs): private (h/BUILD:8)\n"
    + "l/BUILD:3: //l:l -> //k:d (bzlq_edges): private (k/BUILD:2)\nm/BUILD:1: //m:m -> //l:l (srcs): private by default (l/BUILD:1)\n")
UNKNOWN = ("visible: not known: i/BUILD:1: //i:i -> //h:t (srcs): suite isn't there, and may give a visibility (h/BUILD:5)\n"
           "visible: not known: m/BUILD:1: //m:m -> //l:z.c (srcs): a macro or a loop may export it (l/BUILD:1)\n"
           "visible: 1 edge leads into repositories that aren't there, whose visibility isn't known\n")
# A and B, what is said, and the status
PAIRS = (
    ("//b //a:w", "a/BUILD:5: //a:w isn't visible to //b: visible to //c:__subpackages__, //b:g\n", 1),
    ("//d:new //a:w", "a/BUILD:5: //a:w is visible to //d: //b:g > //b:h > //d\n", 0),
    ("c/d //a:w", "a/BUILD:5: //a:w is visible to //c/d: //c:__subpackages__\n", 0),
    ("//cc a:w", "a/BUILD:5: //a:w isn't visible to //cc: visible to //c:__subpackages__, //b:g\n", 1),
    ("//b //a:e.c", "a/BUILD:6: //a:e.c is visible to //b: //b:__pkg__\n", 0),
    ("//z //a:e2.c", "a/BUILD:7: //a:e2.c is visible to //z: //visibility:public\n", 0),
    ("//c //a:BUILD", "a/BUILD:1: //a:BUILD is visible to //c: //b:g > //c/... by the package's default_visibility\n", 0),
    ("//c/d //a:al", "a/BUILD:1: //a:al isn't visible to //c/d: " + f"{DEFAULT}\n", 1),
    ("//a //a:y", "//a:y is visible to //a, its own package\n", 0),
    ("//j //h:y", "h/BUILD:7: //h:y is visible to //j: //h:g > //j\n", 0),
    ("//j //b:g", "b/BUILD:1: //b:g is visible to //j: //visibility:public as each package group\n", 0),
    ("//j //h:t", "", 3),
    ("//j //h:none", "", 2),
    ("//j @r//x:y", "", 2),
    ("//a //b //c", "", 2),
)


def visible(bench):
    """Who may depend on what."""
    bench.lay_out("seen", SEEN)
    bench.run("bzlq //a:x", "seen")
    found = bench.run("bzlq visible", "seen")
    bench.compare("breaches of visibility", (found[0], found[1].partition("visible: 4 of")[0], found[2]), (BREACHES, UNKNOWN, 1))
    bench.compare("those of a query", bench.run("bzlq visible ...", "seen/b")[0::2], (BREACHES.splitlines(True)[0].replace("b/BUILD", "BUILD").replace("(a/", "(../a/"), 1))
    bench.compare("none of a query", bench.run("bzlq visible //a/...", "seen")[0::2], ("", 0))
    bench.compare_calls((("", f"visible {words}", *wanted) for words, *wanted in PAIRS), "seen")
    bench.run("echo '1 // 0' > b/BUILD", "seen")
    found = bench.run("bzlq visible //i //a:w", "seen")
    bench.compare("a group that isn't there", (found[0], found[1].removeprefix("bzlq: reading the workspace\n"), found[2]),
                  ("", "visible: not known: a/BUILD:5: whether //a:w is visible to //i: visible to //c:__subpackages__, //b:g\n", 3))


def completed(bench):
    """The help, the page of the manual and the completions have each word."""
    words = re.findall(r"^  (\w+) ", bench.run("bzlq --help")[0].partition("Commands (")[2].partition("Options of")[0], re.M)
    for path, pattern in (("docs/bzlq.1", r"\.B {}\n"), ("docs/completions/bzlq.bash", r"\b{}\b"), ("docs/completions/_bzlq", r"'{}:"), ("docs/completions/bzlq.fish", r" -a {} ")):
        with open(f"{ROOT}/{path}", encoding="utf-8") as file:
            text = file.read()
        bench.compare(f"the words in {path}", [it for it in words if it != "query" and not re.search(pattern.format(it), text)], [])
    bench.compare("more than 20 words", len(words) > 20, True)


def co_process(bench):
    """Each answer comes as soon as its query is there."""
    with subprocess.Popen([f"{bench.room}/bin/bzlq", "--queries", "-"], cwd=f"{bench.room}/ws/a", env=bench.environment, stdin=subprocess.PIPE,
                          stdout=subprocess.PIPE, stderr=subprocess.DEVNULL) as run:
        for query, label in ((b":a\n", b"//a:a"), (b"lib/x.c\n", b"//a:lib/x.c")):
            run.stdin.write(query)
            run.stdin.flush()
            bench.compare(f"a co-process, {query!r}", [run.stdout.readline() for _ in range(2)], [b"=== 3 1 %s\n" % label, label + b"\n"])
        run.stdin.close()
        bench.compare("its end", run.wait(), 3)


def module(bench):
    """bq.py over the overlay that bzlq keeps."""
    os.environ["XDG_CACHE_HOME"] = bench.environment["XDG_CACHE_HOME"]
    place = f"{bench.room}/ws/a"
    with bq.Workspace(place, overlay=True, program=bench.program) as found:
        bench.compare("bq.py, with an overlay", (found.query("deps(//a)"), found.faults), (["//a b:c", "//a:a", "//a:lib/x.c"], ["//f:BUILD:1: F42 DivZero"]))
        bench.compare("its facts", found.facts("//a").targets["//a:a"].kind, "cc_library rule")
    bench.compare("bq.facts, with an overlay", [*bq.facts(place, "//a", overlay=True, program=bench.program).targets], ["//a:a"])
    try:
        bq.facts(bench.room, overlay=True, program=bench.program)
    except bq.ProcessError as error:
        bench.compare("bq.facts, no workspace", str(error).partition(" in ")[0], "bzlq: no WORKSPACE or MODULE.bazel")


def check(bench):
    """Tries all of it."""
    for part in (answers, words, lint, visible, completed, co_process, module):
        part(bench)
