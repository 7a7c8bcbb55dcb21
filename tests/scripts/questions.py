"""Tries the questions that come up day by day: each is one command, over a small workspace in a repository of git with the tags
v1 and v2. The table of docs/TOOLS.md ("Questions") has the same commands."""
import re

from bench import ROOT
from histories import Project

PAGE = f"{ROOT}/docs/TOOLS.md"
CC = 'load("@rules_cc//cc:defs.bzl", "cc_library", "cc_test")\n'
FILES = {
    "WORKSPACE": "", "CODEOWNERS": "* @all\n/log/ @log  # and what is below\n*.bzl @tools\n", "queries.txt": "deps(//app)\n//log:all\n",
    "tools/BUILD": "", "tools/old.bzl": "X = 1\n",
    "tools/defs.bzl": 'def service(name, deps = []):\n    native.filegroup(name = name, srcs = native.glob(["*.c"]), data = deps)\n    native.sh_test(name = name + "_test", srcs = ["t.sh"], data = [name], tags = ["slow"])\n',
    "app/BUILD": 'load("//tools:defs.bzl", "service")\nservice("app", ["//log", "//log:gone"])\n', "app/main.c": "", "app/t.sh": "",
    "log/BUILD": CC + 'cc_library(\n    name = "log",\n    srcs = ["log.c", "log.h"],\n    visibility = ["//app:__pkg__"],\n)\ncc_library(name = "gone")\n'
                      'cc_test(name = "log_test", size = "small", srcs = ["log.c", "log_test.c"], deps = [":log"])\n', "log/log.c": "", "log/log.h": "", "log/log_test.c": "",
    "ring/BUILD": 'filegroup(name = "a", srcs = [":b"])\nfilegroup(name = "b", srcs = [":a"])\nfilegroup(name = "c", srcs = ["//log"])\n',
}
AFTER = {
    "app/BUILD": 'load("//tools:defs.bzl", "service")\nservice("app", ["//log"])\n', "log/log.c": "int x;\n",
    "log/BUILD": FILES["log/BUILD"].replace('cc_library(name = "gone")\n', ""),
}
TESTS = "//app:app_test\n//log:log_test\n"
# the question, the command, what it writes to standard output, and the status
QUESTIONS = (
    ("Which tests does a change concern?", "bzlq affected --tests v1 v2", TESTS, 0),
    ("Why does A depend on B?", "bzlq why //app //log:log.c", "app/BUILD:2: //app:app -> //log:log (data)\nlog/BUILD:2: //log:log -> //log:log.c (srcs)\n", 0),
    ("What depends on a target?", "bzlq 'rdeps(//..., //log)'", "//app:app\n//app:app_test\n//log:log\n//log:log_test\n//ring:c\n", 0),
    ("Who loads a .bzl file?", "bzlq loads tools/defs.bzl", "app/BUILD:1: //app:BUILD loads //tools:defs.bzl\n", 0),
    ("What does a part of the graph look like?", "bzlq graph 'deps(//app)'", re.compile(r'digraph targets \{.*"//app:app" -> "//log:log".*\}\n', re.S), 0),
    ("Who calls a macro, and what does it declare?", "bzlq users service", "app/BUILD:2: service: //app:app\napp/BUILD:2: service: //app:app_test\n", 0),
    ("Which targets have a tag?", "bzlq 'attr(tags, \"[\\[ ]slow[,\\]]\", //...)'", "//app:app_test\n", 0),
    ("Which rules does nothing use?", "bzlq unused", "ring/BUILD:3: //ring:c (filegroup rule)\n", 0),
    ("Which targets depend on one another?", "bzlq cycles",
     "2 targets depend on one another: //ring:a //ring:b\n  ring/BUILD:1: //ring:a -> //ring:b (srcs)\n  ring/BUILD:2: //ring:b -> //ring:a (srcs)\n", 0),
    ("What are the answers to a thousand queries?", "bzlq queries queries.txt",
     "=== 0 5 deps(//app)\n//app:app\n//app:main.c\n//log:log\n//log:log.c\n//log:log.h\n=== 0 2 //log:all\n//log:log\n//log:log_test\n", 0),
    ("What does a change concern, between two revisions?", "bzlq affected v1 v2", "//app:BUILD\n//app:app\n//app:app_test\n//log:BUILD\n//log:log\n//log:log.c\n//log:log_test\n//ring:c\n", 0),
    ("What are a target's attributes, edges and place?", "bzlq facts //log",
     re.compile(r'\{"facts":2,.*,"targets":1,.*\}\n'
                r'\{"target":"//log:log","kind":"cc_library rule","file":"log/BUILD","line":2,"attributes":\{.*\},"names":\["//log:log.c","//log:log.h"\],"deps":\["//log:log.c","//log:log.h"\]\}\n.*', re.S), 0),
    ("Which targets use a file?", "bzlq owner log/log.c", "//log:log\n//log:log_test\n", 0),
    ("What was changed, and what was deleted?", "bzlq affected --json --kind cc_library v1 v2",
     '{"target":"//log:log","distance":1,"because":{"target":"//log:log.c","change":"contents"}}\n{"deleted":"//log:gone","kind":"cc_library rule"}\n', 0),
    ("Which small tests touch a package?", "bzlq 'kind(\"_test rule\", attr(size, small, rdeps(//..., //log/...)))'", "//log:log_test\n", 0),
    ("Who breaks if a target goes, and in which lines?", "bzlq users //log",
     "app/BUILD:2: //app:app -> //log:log (data)\nlog/BUILD:7: //log:log_test -> //log:log (deps)\nring/BUILD:3: //ring:c -> //log:log (srcs)\n", 0),
    ("Which .bzl files does nothing load?", "bzlq unused --bzl", "tools/old.bzl\n", 0),
    ("Which targets depend on most others?", "bzlq closures -n 2", "6 //app:app_test\n4 //app:app\n", 0),
    ("Which BUILD files have faults?", "bzlq lint log/BUILD app/BUILD", "", 0),
    ("Which edges break a visibility?", "bzlq visible", "ring/BUILD:3: //ring:c -> //log:log (srcs): visible to //app:__pkg__ (log/BUILD:2)\n", 1),
    ("Who owns what a change concerns?", "bzlq affected --owners --tests v1 v2", "@all //app:app_test\n@log //log:log_test\n", 0),
    ("How do a target's dependencies differ on two branches?", "bzlq diff v1 v2 'deps(//app)'", "- //log:gone\n", 0),
    ("Which files are sources of several targets?", "bzlq shared", "//log:log.c\n  log/BUILD:2: //log:log (srcs)\n  log/BUILD:7: //log:log_test (srcs)\n", 0),
    ("Which dependencies may a target not need?", "bzlq unused --deps", "log/BUILD:7: //log:log_test -> //log:log (deps)\n", 0),
)


def answers(bench):
    """Each question, by its command."""
    project = Project(bench, "daily", FILES)
    project.git("tag", "v1")
    for path, text in AFTER.items():
        project.write(path, text)
    project.git("commit", "-qam", "second")
    project.git("tag", "v2")
    bench.run("bzlq //log", "daily")
    for question, command, output, status in QUESTIONS:
        found = bench.run(command, "daily")
        is_right = bool(output.fullmatch(found[0])) if isinstance(output, re.Pattern) else found[0] == output
        bench.compare(question, (found[0] if not is_right else "", found[1] if found[2] != status else "", found[2]), ("", "", status))


# sources, and what a rule of these doesn't need of the rules a (a.h), b (b.h, uses a), c (c.h) and others, which it names; and what is said
SOURCES = {
    "needed": ({"x.c": '#include "p/c.h"\n'}, "", ":c", "", ""),
    "needed for what it leads to": ({"x.c": '#include "p/a.h"\n'}, "", ":b", "", ""),
    "another leads there too": ({"x.c": '#include "p/a.h"\n'}, "", ":b :a", "b", ""),
    "two of which one is enough": ({"x.c": '#include "p/a.h"\n'}, "", ":b :b2", "b", ""),
    "two": ({"x.c": "int x;\n"}, "", ":b :c", "b c", ""),
    "the words of a header": ({"x.c": "", "x.h": "// c\n"}, "", ":c", "", ""),
    "a header with another sign": ({"x.c": '#include "p/d-e.h"\n'}, 'cc_library(name = "d", hdrs = ["d-e.h"])\n', ":d", "", ""),
    "from elsewhere": ({"x.c": ""}, "", "@other//:o", "", "1 dependencies aren't judged: 1 lead out of the workspace"),
    "leads elsewhere": ({"x.c": ""}, 'cc_library(name = "d", hdrs = ["d.h"], deps = ["@other//:o"])\n', ":d", "", "1 dependencies aren't judged: 1 lead out of the workspace"),
    "linked": ({"x.c": ""}, 'cc_library(name = "d", srcs = ["d.c"])\ncc_library(name = "e", hdrs = ["e.h"], alwayslink = 1)\n', ":d :e", "",
               "2 dependencies aren't judged: 2 are linked for what they do"),
    "a source that is made": ({"x.c": ""}, 'genrule(name = "g", outs = ["y.c"], cmd = "")\n', ":c", "", "1 dependencies aren't judged: 1 have sources that aren't files here"),
    "made up": ({"x.c": ""}, 'load("@other//:o.bzl", "made")\nmade(name = "m", srcs = ["m.idl"])\n', ":m", "", "1 dependencies aren't judged: 1 lead to rules whose files aren't known"),
    "what is made": ({"x.c": '#include "p/h.h"\n'}, 'genrule(name = "g", outs = ["h.h"], cmd = "")\ncc_library(name = "h", hdrs = [":g"])\n', ":h", "", ""),
    "a script of the linker": ({"x.c": "", "x.lds": ""}, "", "x.lds", "", ""),
    "a protocol": ({"x.c": '#include "p/n.pb.h"\n'}, 'proto_library(name = "n_proto", srcs = ["n.proto"])\ncc_proto_library(name = "n_cc", deps = [":n_proto"])\n', ":n_cc", "", ""),
}


def dependencies(bench):
    """bzlq unused --deps: what a rule may not need."""
    for what, (texts, more, deps, listed, said) in SOURCES.items():
        files = {"WORKSPACE": "", **{f"p/{it}": text for it, text in texts.items()}, "p/BUILD": more + "".join(
            f'cc_library(name = "{name}", hdrs = ["{name}.h"], deps = {uses})\n' for name, uses in (("a", []), ("b", [":a"]), ("b2", [":a"]), ("c", [])))}
        files["p/BUILD"] += f'cc_library(name = "x", srcs = {[it for it in texts if it != "x.lds"] + [":g"] * what.startswith("a source")}, deps = {deps.split()})\n'
        files |= {f"p/{it}": "" for it in ("a.h", "b.h", "b2.h", "c.h", "d-e.h", "d.h", "d.c", "e.h", "m.idl", "n.proto")}
        bench.lay_out("uses", files)
        found, errors, _ = bench.run("bzlq unused --deps //p:x", "uses")
        line = files["p/BUILD"].count("\n")
        bench.compare(f"{what}: listed", found, "".join(f"p/BUILD:{line}: //p:x -> //p:{it} (deps)\n" for it in listed.split()))
        bench.compare(f"{what}: said", [it for it in errors.splitlines() if "judged" in it], [f"unused: {said}"] if said else [])


def rows(bench):
    """The page has the same questions and commands."""
    with open(PAGE, encoding="utf-8") as file:
        table = file.read().partition("\n## Questions\n")[2].partition("\n## ")[0]
    listed = [(question, command.replace("\\|", "|")) for question, command in re.findall(r"^\| (.*?\?) \| `+ ?(.*?) ?`+ \|$", table, re.M)]
    bench.compare("the questions of docs/TOOLS.md", listed, [(question, command) for question, command, *_ in QUESTIONS])


OWNED = (
    ("*", "a/b.c", True), ("*.c", "a/b.c", True), ("*.c", "a/b.h", False), ("/a/", "a/b/c", True), ("/a/", "x/a/b", False), ("a/", "x/a/b", True), ("a/*", "a/b", True),
    ("a/*", "a/b/c", False), ("a/**", "a/b/c", True), ("**/b", "a/b/c", True), ("/a", "a", True), ("/a", "ab", False), ("a/**/c", "a/c", True), ("a\\ b", "a b", True),
    ("?.c", "x.c", True), ("?.c", "xy.c", False),
)


def owners(bench):
    """Patterns of CODEOWNERS."""
    from bzlq.diff.owners import Owners
    for pattern, path, is_owned in OWNED:
        bench.compare(f"{pattern} of {path}", Owners(f"[Section]\n{pattern} @x\n").of_path(path), ["@x"] if is_owned else [])
    bench.compare("sections of GitLab", Owners("[Docs] @d\n^[Tests][2] @t\n* @a\n").sections, 2)
    bench.compare("the last one counts", Owners("* @a @b\n# x\n/a @c\n/a/b\n").of_path("a/b"), [])
    bench.compare("no CODEOWNERS", Project(bench, "unowned", {"WORKSPACE": "", "BUILD": ""}).affected("--owners", "HEAD")[1:],
                  ("affected: the repository has no .github/CODEOWNERS, CODEOWNERS or docs/CODEOWNERS\n", 2))


def check(bench):
    """Tries all of it."""
    for part in (answers, dependencies, rows, owners):
        part(bench)
