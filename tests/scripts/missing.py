"""Tries docs/REAL_WORKSPACES.md, "What can be missing, and what says so": a case for each row of its table.

Each has a small workspace in which something is made up, left out or can't be read, a command, and what the command has to write to both
outputs (of standard error: lines that have to be there), with its status.
"""
import re
from unittest import mock

from bench import ROOT
from bzlq.overlay import approximations
from bzlq.overlay.arguments import LOST
from histories import Project
from mistakes import MISTAKES, WORKSPACE
from more_mistakes import quoted

PAGE = f"{ROOT}/docs/REAL_WORKSPACES.md"

R = 'load("@r//:m.bzl", "junit_tests")\n'


def changed(bench, name, files, path, text, *words):
    """What bzlq affected says after a change of one file."""
    project = Project(bench, name, {"WORKSPACE": "", **files})
    project.write(path, text)
    return project.affected("--base", "HEAD", *words)


def told(bench, what, found, output, errors, status):
    """Compares what a command wrote with what it has to write."""
    lacking = [line for line in errors if line not in found[1]]
    bench.compare(what, (found[0], found[1] if lacking else "", found[2]), (output, "", status))


JUNIT = {"a/BUILD": R + 'junit_tests(name = "t", srcs = ["T.java"])\n', "a/T.java": ""}
SUITES = {"a/BUILD": 'load("@r//:m.bzl", "other", "suite")\nsuite(name = "t", size = "small", srcs = ["T.java"])\nother(name = "u", srcs = ["T.java"])\n', "a/T.java": ""}
# a test that no call declares: a label alone names it, as a further target of a macro
NAMED_TEST = {"a/BUILD": 'load("@r//:m.bzl", "checked")\nchecked(name = "x", srcs = ["T.java"])\ntest_suite(name = "all", tests = [":x_test"])\n', "a/T.java": ""}
UNLISTED = "affected: targets may be missing: 1 target of a kind that was made up (junit_tests) may be a test, and isn't listed: --tests lists it\n"
UNLIKELY = "affected: 1 target of a kind that was made up isn't listed: it would be a test only if its macro declares one, which neither a name nor an attribute says: //a:u\n"
SETTINGS = {
    "MODULE.bazel": 'pip.parse(hub_name = "pip", requirements_lock = "//third_party:requirements_lock.txt")\ngo_deps.from_file(go_mod = "//:go.mod")\n',
    ".bazelrc": "import %workspace%/tools/other.bazelrc\ntry-import none.bazelrc\n", "tools/other.bazelrc": "", "go.mod": "", "go.sum": "",
    "third_party/requirements_lock.txt": "", "third_party/BUILD": "", "WORKSPACE": 'load("//tools:deps.bzl", "deps")\ndeps()\n',
    "tools/BUILD": "", "tools/deps.bzl": 'load(":more.bzl", "more")\ndef deps():\n    maven_install(lock = "@//:maven_install.json")\n', "tools/more.bzl": "more = 1\n",
    "maven_install.json": "", "a/BUILD": 'filegroup(name = "x", srcs = ["@pip//numpy"])\nfilegroup(name = "y")\n', "README": "",
}
SETTING = "affected: {0}: what depends on another repository counts as changed (1 target), and no other target\n".format


def tests(bench):
    """Tests that a macro of another repository declares."""
    run = lambda *words: changed(bench, "junit", JUNIT, "a/T.java", "x", *words)  # noqa: E731
    told(bench, "tests of a made-up kind, by kind", run("--kind", "'_test rule'"), "", [UNLISTED], 3)
    told(bench, "tests of a made-up kind, by --tests", run("--tests"), "//a:t\n", ["1 affected\n"], 0)
    told(bench, "what is given what tests alone are given", changed(bench, "suites", SUITES, "a/T.java", "x", "--tests"), "//a:t\n", ["1 affected\n"], 0)
    told(bench, "what nothing says to be a test", changed(bench, "suites", SUITES, "a/T.java", "x", "--tests"), "//a:t\n", [UNLIKELY], 0)
    told(bench, "the same by kind", changed(bench, "suites", SUITES, "a/T.java", "x", "--kind", "'_test rule'", "--all-on-fault"), "//a:t\n", [UNLIKELY], 0)
    quiet = changed(bench, "suites", SUITES, "a/T.java", "x", "--kind", "'other rule'")
    bench.compare("where no tests are looked for", (quiet[0], UNLIKELY in quiet[1]), ("//a:u\n", False))
    told(bench, "tests of a made-up kind, where all are listed", run("--kind", "'_test rule'", "--all-on-fault"), "//a:t\n", ["1 affected\n"], 0)
    run = lambda *words: changed(bench, "named", NAMED_TEST, "a/T.java", "x", *words)  # noqa: E731
    told(bench, "a test that a label alone names, by kind", run("--kind", "'_test rule'"), "", [UNLISTED.replace("junit_tests", "filegroup")], 3)
    told(bench, "a test that a label alone names, by --tests", run("--tests"), "//a:x_test\n", ["1 affected\n"], 0)


def settings(bench):
    """Files that the workspace's own name: lists of dependencies, and what those load."""
    for path in ("third_party/requirements_lock.txt", "go.mod", "go.sum", "maven_install.json", "tools/deps.bzl", "tools/more.bzl", "tools/other.bazelrc", "MODULE.bazel"):
        told(bench, f"a dependency, by {path}", changed(bench, "settings", SETTINGS, path, "# x\n", "--kind", "rule"), "//a:x\n", [SETTING(path)], 0)
    told(bench, "a file that none names", changed(bench, "settings", SETTINGS, "README", "x"), "", ["affected: in no target: README\n"], 0)


LOCAL = {
    "third/sub/MODULE.bazel": "", "third/sub/BUILD": 'filegroup(name = "x", srcs = ["x.c"])\n', "third/sub/x.c": "", "third/y.c": "",
    "a/BUILD": 'load("@rules//:r.bzl", "lib")\nfilegroup(name = "a", srcs = ["@s//:x"])\nfilegroup(name = "b", srcs = ["@other//:y"])\n', "c/BUILD": 'load("@s//:s.bzl", "lib")\nlib(name = "c")\n',
}
# what says where the repository lies, and by which names it is known
LOCALS = {
    "WORKSPACE": ('local_repository(\n    name = "s",\n    path = "./third/sub",\n)\n', "@s"),
    "MODULE.bazel": ('bazel_dep(name = "sub", version = "1", repo_name = "s")\nlocal_path_override(module_name = "sub", path = "third/sub")\n', "@s or @sub"),
}


def local(bench):
    """A folder of the workspace that is another repository: what depends on that is concerned."""
    for path, (text, names) in LOCALS.items():
        line = f"affected: third/sub: what depends on {names} counts as changed (2 targets)\n"
        found = changed(bench, "local", {**LOCAL, path: text}, "third/sub/x.c", "x", "--kind", "rule")
        told(bench, f"a repository of a folder, by {path}", found, "//a:a\n//c:c\n//third/sub:x\n", [line], 0)
        told(bench, f"a file beside it, by {path}", changed(bench, "local", {**LOCAL, path: text}, "third/y.c", "x", "--kind", "rule"), "", ["in no target: third/y.c\n"], 0)


FURTHER = {
    "WORKSPACE": "", "a/BUILD": 'load("@r//:m.bzl", "release")\nrelease(name = "x", srcs = ["x.sh"])\nfilegroup(name = "all", srcs = [":x-and-hashes"])\n', "a/x.sh": "",
    "BUILD": 'load("@npm//:defs.bzl", "npm_link_all_packages")\nnpm_link_all_packages(name = "node_modules")\n',
    "b/BUILD": 'filegroup(name = "b", srcs = ["//a:x-and-hashes", "//:node_modules/lodash"])\nfilegroup(name = "c", srcs = ["//a:y"])\n',
}


def further(bench):
    """Further targets of a macro that isn't there: a label that begins with the name of one of its calls."""
    bench.lay_out("ws", FURTHER)
    dangling = "b/BUILD:2:31: F79 DanglingLabel: package 'a' has no target 'y'\n"
    told(bench, "a further target of a macro", bench.run("bzlq --output label_kind 'deps(//b) - //b'", "ws"),
         "npm_link_all_packages rule //:node_modules\nfilegroup rule //:node_modules/lodash\nrelease rule //a:x\nfilegroup rule //a:x-and-hashes\n"
         "source file //a:x.sh\n", [dangling, "bzlq: 4 of 5 targets of this answer are approximations: kind made up 4\n"], 3)
    told(bench, "a further target of a macro, by its kind", bench.run("bzlq 'kind(test, //a:x-and-hashes)'", "ws"), "",
         ["bzlq: 1 of the targets that this query looks through has a kind that was made up, and kind(..) leaves it out\n"], 3)


NAMES = {"c/BUILD": 'filegroup(name = "g", srcs = glob(["*.txt"]))\nfilegroup(name = "h", srcs = ["a b.txt"])\n', "c/ünï.txt": "", "c/日本.txt": "", "c/a b.txt": ""}


def names(bench):
    """Files whose names bq can't have."""
    bench.lay_out("ws", {"WORKSPACE": "", **NAMES})
    line = "bzlq: 1 of 2 targets of this answer is an approximation: files left out 1\n"
    told(bench, "a file with such a name", bench.run("bzlq 'deps(//c:g)'", "ws"), "//c:a b.txt\n//c:g\n", [line], 3)
    with open(f"{bench.room}/ws/c/ö.txt", "w", encoding="utf-8"):
        bench.run("rm c/ü*.txt c/日*.txt", "ws")
    told(bench, "a file with such a name, that came", bench.run("bzlq --facts //c:g | grep -c 'files: c/ö.txt'", "ws"), "1\n", [""], 0)
    told(bench, "what has no such file", bench.run("bzlq 'deps(//c:h)'", "ws"), "//c:a b.txt\n//c:h\n", [""], 0)
    bench.lay_out("ws", {"WORKSPACE": "", "c/BUILD": 'filegroup(name = "g", srcs = ["ünï.txt"])\n', "c/ünï.txt": ""})
    line = "c/BUILD:1:31: F78 BadLabel: 'ünï.txt' is no label: the name 'ünï.txt' has the character 'ü'\n"
    told(bench, "such a name in srcs", bench.run("bzlq //c:all", "ws"), "", [line], 3)
    found = changed(bench, "names", NAMES, "c/ünï.txt", "x")
    told(bench, "a change of such a file", found, "", ["affected: targets may be missing: c/ünï.txt: bq takes no file of such a name\n"], 3)


def unreadable(bench):
    """BUILD files that can't be read: a fault of their package."""
    bench.lay_out("ws", {"WORKSPACE": "", "x/BUILD": "", "y/BUILD": b'filegroup(name = "a")\n\0\n', "z/BUILD": 'filegroup(name = "z")\n'})
    bench.run("rm x/BUILD; ln -s nowhere x/BUILD", "ws")
    lines = ["x/BUILD:1:1: F56 Fail: \"x/BUILD can't be read: No such file or directory\"\n", "y/BUILD:2:1: F1 BadByte"]
    told(bench, "files that can't be read", bench.run("bzlq //...", "ws"), "//z:z\n", lines, 3)
    bench.run("rm x/BUILD; touch -d tomorrow x/BUILD; bzlq //...; ln -sf nowhere x/BUILD", "ws")
    told(bench, "a file that can't be read any more", bench.run("bzlq //...", "ws"), "//z:z\n", lines, 3)
    found = changed(bench, "unreadable", {"z/BUILD": 'filegroup(name = "z", srcs = ["z.c"])\n', "x/BUILD": ""}, "z/z.c", "", "--kind", "rule")
    told(bench, "a change beside", found, "//z:z\n", ["1 affected\n"], 0)


# what is lost: files, a query, its answer, the line that tells it, and the status
LOSSES = {
    "kind": ({"a/BUILD": R + 'junit_tests(name = "t", srcs = ["T.java"])\n'}, "//a:t", "//a:t\n", "kind made up 1", 0),
    "kind, where kinds are asked for": ({"a/BUILD": R + 'junit_tests(name = "t", srcs = ["T.java"])\n'}, 'kind("test", //a:t)', "//a:t\n", "kind made up 1", 3),
    "kind, of others than are asked for": ({"a/BUILD": R + 'junit_tests(name = "t", srcs = ["T.java"])\njunit_tests(name = "u")\nfilegroup(name = "x")\n'}, 'kind("filegroup", //a:all) + kind("_test rule", //a:t)', "//a:x\n",
                                           "2 of the targets that this query looks through have a kind that was made up, and kind(..) leaves them out", 3),
    "kind, by a variable": ({"a/BUILD": R + 'junit_tests(name = "t", srcs = ["T.java"])\nfilegroup(name = "x")\n'}, 'let v = //a:all in kind("filegroup", $v)', "//a:x\n",
                            "1 of the targets that this query looks through has a kind that was made up, and kind(..) leaves it out", 3),
    "targets": ({"a/BUILD": 'load(":m.bzl", "m")\nm(name = "t", srcs = ["a.c"])\n', "a/m.bzl": 'def m(name, srcs):\n    x = lambda: 0\n    native.filegroup(name = name)\n'},
                "//a:t", "//a:t\n", "one target for a macro 1", 3),
    "targets, of a macro of a rule set": ({"a/BUILD": 'load("@io_bazel_rules_go//go:def.bzl", "nogo")\nnogo(name = "t", vet = True)\n'}, "//a:t", "//a:t\n", "one target for a macro 1", 3),
    "kind, of a macro of a rule set": ({"a/BUILD": 'load("@bazel_skylib//rules:copy_file.bzl", "copy_file")\ncopy_file(name = "t", src = "a.c", out = "b.c")\n'}, "//a:t", "//a:t\n", "kind made up 1", 0),
    "kind, of a target of another repository": ({"a/BUILD": 'filegroup(name = "t", srcs = ["@r//p:x"])\n'}, 'kind("filegroup", deps(//a:t))', "//a:t\n@r//p:x\n", "1 of 2 targets of this answer is an approximation: kind made up 1", 3),
    "kind, of targets that a macro of a rule set declares beside": (
        {"a/BUILD": 'load("@rules_python//python:pip.bzl", "compile_pip_requirements")\ncompile_pip_requirements(name = "t", requirements_txt = "r.txt")\n', "a/r.txt": ""},
        'kind("_test rule", rdeps(//..., //a:r.txt))', "//a:t_test\n", "kind made up 1", 3),
    "value": ({"a/BUILD": 'load("@r//:m.bzl", "files")\nfilegroup(name = "t", srcs = files("a", ["b.c"]))\n'}, "deps(//a:t)", "//a:b.c\n//a:t\n", "value that isn't there 1", 3),
    "value, in a macro": ({"a/BUILD": 'load(":m.bzl", "m")\nm(name = "t")\n', "a/m.bzl": 'load("@r//:m.bzl", "MORE")\ndef m(name):\n    native.filegroup(name = name, srcs = MORE)\n'},
                          "//a:t", "//a:t\n", "value that isn't there 1", 3),
    "value, by another name": ({"a/BUILD": 'load("@r//:m.bzl", "MORE")\nALL = MORE + ["x"]\nfilegroup(name = "t", srcs = ALL)\n'}, "deps(//a:t)", "//a:t\n//a:x\n", "value that isn't there 1", 3),
    "value, by another file": ({"a/BUILD": 'load(":m.bzl", "ALL")\nfilegroup(name = "t", srcs = ALL)\n', "a/m.bzl": 'load("@r//:m.bzl", "MORE")\nALL = MORE + ["x"]\n'},
                               "deps(//a:t)", "//a:t\n//a:x\n", "value that isn't there 1", 3),
    "value, by a function": ({"a/BUILD": 'load(":m.bzl", "m")\nm("t")\n', "a/m.bzl": 'load("@r//:m.bzl", "MORE")\ndef f():\n    return MORE\ndef m(name):\n    native.filegroup(name = name, srcs = f())\n'},
                             "//a:t", "//a:t\n", "value that isn't there 1", 3),
    "value, given to a macro": ({"a/BUILD": 'load("@r//:m.bzl", "MORE")\nload(":m.bzl", "m")\nm("t", MORE)\n', "a/m.bzl": "def m(name, srcs):\n    native.filegroup(name = name, srcs = srcs)\n",
                                 "b/BUILD": 'load("//a:m.bzl", "m")\nm("t", [])\n', "m.bzl": "", "BUILD": ""}, "//a:t + //b:t", "//a:t\n//b:t\n", "1 of 2 targets of this answer is an approximation: value", 3),
    "value, given by a macro to another": ({"a/BUILD": 'load(":m.bzl", "m")\nm("t")\n', "a/m.bzl": 'load("@r//:m.bzl", "MORE")\ndef n(name, srcs):\n    native.filegroup(name = name, srcs = srcs)\n'
                                            'def m(name):\n    n(name, MORE)\n'}, "//a:t", "//a:t\n", "value that isn't there 1", 3),
    "value, in a name": ({"a/BUILD": 'load("@r//:m.bzl", "MORE")\nfilegroup(name = "t%d" % len(MORE))\n'}, "//a:all", "//a:t0\n", "value that isn't there 1", 3),
    "value, under a query of users": ({"a/BUILD": 'load("@r//:m.bzl", "files")\nfilegroup(name = "t", srcs = files("a"))\nfilegroup(name = "u")\n'}, "rdeps(//..., //a:u)",
                                      "//a:u\n", "1 of the targets that this query looks through may lack edges", 3),
    "value, under a query of users below a sum": ({"a/BUILD": 'load("@r//:m.bzl", "files")\nfilegroup(name = "s", srcs = [":t"])\nfilegroup(name = "t", srcs = files("a"))\nfilegroup(name = "u")\n'},
                                                  "rdeps(//a:s + //a:u, //a:u)", "//a:u\n", "1 of the targets that this query looks through may lack edges", 3),
    "value, under a query of files": ({"a/BUILD": 'load("@r//:m.bzl", "files")\nfilegroup(name = "t", srcs = files("a", ["b.c"]))\n'}, 'kind("source file", deps(//a:t))', "//a:b.c\n",
                                      "1 of the targets that this query looks through may lack edges", 3),
    "value, under a difference": ({"a/BUILD": 'load("@r//:m.bzl", "files")\nfilegroup(name = "t", srcs = files("a", ["b.c"]))\n'}, "let v = deps(//a:t, 1) in $v - //a:t", "//a:b.c\n",
                                  "1 of the targets that this query looks through may lack edges", 3),
    "value, under a query of labels": ({"a/BUILD": 'load("@r//:m.bzl", "files")\nfilegroup(name = "t", srcs = files("a"))\nfilegroup(name = "u")\n'}, "labels(srcs, //a:all) + //a:u", "//a:u\n",
                                       "1 of the targets that this query looks through may lack edges", 3),
    "select, under a query of labels": ({"a/BUILD": 'alias(name = "t", actual = select({":c": ":x", "//conditions:default": ":y"}))\nfilegroup(name = "c")\nfilegroup(name = "x")\nfilegroup(name = "y")\n'},
                                        "labels(actual, //a:t)", "//a:y\n", "1 of the targets that this query looks through may lack edges", 3),
    "select, under a query of attributes": ({"a/BUILD": 'cc_binary(name = "t", linkstatic = select({":c": True, "//conditions:default": False}))\nfilegroup(name = "c")\n'}, "attr(linkstatic, 1, //...)", "",
                                            "1 of the targets that this query looks through may have more in linkstatic than is known (by a select, a dict, or a value that isn't there), and attr(..) leaves that out", 3),
    "dict, under a query of attributes": ({"a/BUILD": 'config_setting(name = "t", values = {"cpu": "arm"})\nfilegroup(name = "c")\n'}, "//a:c + attr(values, arm, //...)", "//a:c\n",
                                          "1 of the targets that this query looks through may have more in values than is known", 3),
    "value, under a query of attributes": ({"a/BUILD": 'load("@r//:m.bzl", "files")\nfilegroup(name = "t", srcs = files("a"))\nfilegroup(name = "u", srcs = ["a"])\n'}, "attr(srcs, a, //...)", "//a:u\n",
                                           "1 of the targets that this query looks through may have more in srcs than is known", 3),
    "select, under a query of other attributes": ({"a/BUILD": 'cc_binary(name = "t", linkstatic = select({":c": True, "//conditions:default": False}))\nfilegroup(name = "c", srcs = ["x"])\n'}, "attr(srcs, x, //...)", "//a:c\n",
                                                  "bzlq: reading the workspace\n", 0),
    "testonly, of a kind that was made up": ({"a/BUILD": R + 'junit_tests(name = "t", srcs = ["T.java"])\nfilegroup(name = "x", testonly = 1)\n'}, "attr(testonly, 1, //a:all)", "//a:x\n",
                                             "1 of the targets that this query looks through may be testonly by a default", 3),
    "edges": ({"a/BUILD": 'load("@r//:m.bzl", "pack")\npack(name = "t", odd_of = ["a.txt"])\n'}, "//a:t", "//a:t\n", "kind made up 1, edges by a type that was guessed 1", 3),
    "edges, by arguments without a name": ({"a/BUILD": 'load("@r//:m.bzl", "suite")\nsuite("t", ["a.java"], size = "small")\n'}, "//a:t", "//a:t\n", "kind made up 1, edges by a type that was guessed 1", 3),
    "kind, with other arguments without a name": ({"a/BUILD": 'load("@r//:m.bzl", "suite")\nsuite("t", "small", 1, ["-a"], size = "small")\n'}, "//a:t", "//a:t\n", "kind made up 1\n", 0),
    "value, of all rules": ({"a/BUILD": 'load(":m.bzl", "m")\nm("s")\n', "a/m.bzl": "def m(name):\n    native.filegroup(name = name, srcs = [it for it in native.existing_rules()])\n"},
                            "//a:s", "//a:s\n", "value that isn't there 1", 3),
    "value, of all rules, by a function": ({"a/BUILD": 'load(":m.bzl", "m")\nm("s")\n', "a/m.bzl": "def f():\n    return native.existing_rules().keys()\ndef m(name):\n    native.filegroup(name = name, srcs = f())\n"},
                                           "//a:s", "//a:s\n", "value that isn't there 1", 3),
    "whether there is a rule": ({"a/BUILD": 'load(":m.bzl", "m")\nm("s")\n', "a/m.bzl": "def m(name):\n    if name not in native.existing_rules():\n        native.filegroup(name = name)\n"},
                                "//a:s", "//a:s\n", "bzlq: reading the workspace\n", 0),
    "files, by a macro": ({"a/BUILD": 'load("//:m.bzl", "m")\nm(name = "t")\n', "BUILD": "", "m.bzl": 'def m(name):\n    srcs = native.glob(["*.txt"])\n    native.filegroup(name = name, srcs = srcs)\n',
                           "a/ü.txt": ""}, "//a:t", "//a:t\n", "files left out 1", 3),
    "files, directories of a glob": ({"a/BUILD": 'filegroup(name = "t", srcs = glob(["*"], exclude_directories = 0))\n', "a/d/x": ""}, "deps(//a:t)", "//a:BUILD\n//a:t\n", "files left out 1", 3),
    "files, directories of a glob with a name": ({"a/BUILD": 'D = glob(["d"], exclude_directories = False)\nfilegroup(name = "t", srcs = D)\nfilegroup(name = "u")\n', "a/d/x": ""}, "deps(//a:t + //a:u)",
                                                 "//a:t\n//a:u\n", "1 of 2 targets of this answer is an approximation: files left out 1", 3),
    "files, directories of a glob of a macro": ({"a/BUILD": 'load(":m.bzl", "m")\nm("t")\n', "a/m.bzl": 'def m(name):\n    srcs = native.glob(["d"], exclude_directories = 0)\n    native.filegroup(name = name, srcs = srcs)\n', "a/d/x": ""},
                                                "deps(//a:t)", "//a:t\n", "files left out 1", 3),
    "dict": ({"a/BUILD": 'config_setting(name = "t", values = {"cpu": "arm"})\n'}, "//a:t", "//a:t\n", "dict left out 1", 0),
    "dict, with labels": ({"a/BUILD": 'config_setting(name = "t", flag_values = {":f": "arm"})\nfilegroup(name = "f")\n'}, "deps(//a:t)", "//a:f\n//a:t\n", "dict left out 1", 0),
    "dict, with labels as values": ({"a/BUILD": 'load("@r//:m.bzl", "pack")\npack(name = "t", files = {"x": ":a.txt"})\n'}, "//a:t", "//a:t\n", "edges by a type that was guessed 1, dict left out 1", 3),
    "dict, of toolchains": ({"a/BUILD": 'cc_toolchain_suite(name = "t", toolchains = {"k8": "k8-cc"})\nfilegroup(name = "k8-cc")\n'}, "deps(//a:t)", "//a:k8-cc\n//a:t\n", "dict left out 1", 0),
    "select": ({"a/BUILD": 'alias(name = "t", actual = select({":c": ":x", "//conditions:default": ":y"}))\nfilegroup(name = "c")\nfilegroup(name = "x")\nfilegroup(name = "y")\n'},
               "deps(//a:t)", "//a:c\n//a:t\n//a:x\n//a:y\n", "one branch of a select 1", 0),
    "test_suite": ({"a/BUILD": 'load(":m.bzl", "m")\nm("t")\n', "a/m.bzl": "def m(name):\n    native.test_suite(name = name)\n"}, "//a:t", "//a:t\n", "edges by a type that was guessed 1", 3),
}


def losses(bench):
    """What was made up or left out of targets."""
    for what, (files, query, output, line, status) in LOSSES.items():
        bench.lay_out("ws", {"WORKSPACE": "", **files})
        told(bench, f"lost, {what}", bench.run(f"bzlq '{query}'", "ws"), output, [line], status)
    bench.lay_out("ws", {"WORKSPACE": "", **LOSSES["kind, of others than are asked for"][0]})
    for form in ("label", "location", "package"):
        query = f"bzlq --output {form} 'kind(filegroup, //a:all)'"
        told(bench, f"lost, by --output {form}", bench.run(query, "ws"), {"label": "//a:x\n", "location": "a/BUILD:4: filegroup rule //a:x\n", "package": "a\n"}[form],
             ["kind(..) leaves them out"], 3)
    told(bench, "lost, in a workspace that is asked many queries", bench.run("bzlq queries -", "ws", b"//a:x\n"), "=== 0 1 //a:x\n//a:x\n",
         ["bzlq: 2 of 5 targets of the workspace are approximations: kind made up 2\n"], 0)
    bench.lay_out("ws", {"WORKSPACE": "", **LOSSES["dict, under a query of attributes"][0]})
    told(bench, "lost, an attribute in many queries", bench.run("bzlq queries -", "ws", b"attr(values, arm, //...)\n"), "=== 0 0 attr(values, arm, //...)\n",
         ["bzlq: 1 of the targets of the workspace may have more in values than is known (by a select, a dict, or a value that isn't there), and attr(..) leaves that out\n"], 3)
    for what in ("kind, of others than are asked for", "kind, by a variable", "value, under a query of users"):
        files, query, _, line, _ = LOSSES[what]
        bench.lay_out("ws", {"WORKSPACE": "", **files})
        bench.run("cp $(bzlq --bundle-path) ../bundle", "ws")
        for word, of in (("facts", "bzlq"), ("graph", "graph"), ("graph --bundle ../bundle", "graph")):
            found = bench.run(f"bzlq {word} '{query}'", "ws")
            told(bench, f"lost, by {word}, {what}", ("", *found[1:]), "", [f"{of}: {line}\n"], 3)
    bench.lay_out("ws", {"WORKSPACE": "", **LOSSES["test_suite"][0]})
    bench.compare("lost, by --strict", bench.run("bzlq --strict //...", "ws")[2], 3)
    bench.lay_out("ws", {"WORKSPACE": "", **LOSSES["dict"][0]})
    bench.compare("lost, a dict by --strict", [bench.run(f"bzlq {word} //...", "ws")[2] for word in ("", "--strict")], [0, 3])
    bench.compare("lost, in facts", bench.run("bzlq --facts //...", "ws")[0].splitlines()[1],
                  '{"target":"//a:t","kind":"config_setting rule","file":"a/BUILD","line":1,"attributes":{"name":"t","bzlq_lost":["dict: values"]},"names":[],"deps":[]}')


L = 'load("@r//:m.bzl", "SOME", "f")\n'
# what declares targets by a value that isn't there: a BUILD file, a file that it loads, the file and line that is named, and the value
LOOPS = {
    "a loop": (L + '[filegroup(name = "x" + it) for it in SOME]\n', "", "a/BUILD:2", "SOME"),
    "a filter": (L + '[filegroup(name = "x" + it) for it in ["a", "b"] if it in SOME]\n', "", "a/BUILD:2", "SOME"),
    "a condition": (L + 'filegroup(name = "x") if SOME else None\n', "", "a/BUILD:2", "SOME"),
    "a condition with and": (L + 'f("a") and filegroup(name = "x")\n', "", "a/BUILD:2", "f"),
    "a loop of macros": (L + 'load(":m.bzl", "m")\n[m(name = it) for it in SOME]\n', "def m(name):\n    native.filegroup(name = name)\n", "a/BUILD:3", "SOME"),
    "a loop in a macro": ('load(":m.bzl", "m")\nm("x")\n', L + "def m(name):\n    for it in SOME:\n        native.filegroup(name = name + it)\n", "a/m.bzl:3", "SOME"),
    "a loop over a variable": ('load(":m.bzl", "m")\nm("x")\n', L + "def m(name):\n    some = []\n    for it in f(SOME):\n        some.append(it)\n    some += SOME\n    [native.filegroup(name = it) for it in some]\n",
                               "a/m.bzl:7", "SOME"),
    "a loop over what a macro is given": ('load("@r//:m.bzl", "SOME")\nload(":m.bzl", "m")\nm(SOME)\n', "def m(names):\n    [native.filegroup(name = it) for it in names]\n", "a/m.bzl:2", "SOME"),
    "a loop over what a macro passes on": (L + 'load(":m.bzl", "m")\nm(which = SOME)\n', "def n(some):\n    for it in some:\n        native.filegroup(name = it)\ndef m(which = []):\n    n(some = which)\n",
                                           "a/m.bzl:2", "SOME"),
    "a return": ('load(":m.bzl", "m")\nm("x")\n', L + "def m(name):\n    if not SOME:\n        return\n    native.filegroup(name = name)\n", "a/m.bzl:3", "SOME"),
    "a turn that is left out": ('load(":m.bzl", "m")\nm()\n', L + 'def m():\n    for it in ["a", "b"]:\n        if it not in SOME:\n            continue\n        native.filegroup(name = it)\n', "a/m.bzl:4", "SOME"),
    "a condition in a macro": ('load(":m.bzl", "m")\nm("x")\n', L + 'def m(name):\n    if f("linux"):\n        n(name)\ndef n(name):\n    native.filegroup(name = name)\n', "a/m.bzl:3", "f"),
}
# where such a value decides about other things
OTHER_LOOPS = {
    "a loop of texts": (L + 'filegroup(name = "x", tags = ["a" + it for it in ["b"]])\n', ""),
    "a loop of calls that declare nothing": (L + "[fail(it) for it in SOME]\n[print(it) for it in SOME]\n", ""),
    "another argument of a macro": ('load("@r//:m.bzl", "SOME")\nload(":m.bzl", "m")\nm("x", SOME, True)\n', "def m(name, srcs, more = False):\n    if more:\n        native.filegroup(name = name, srcs = srcs)\n    "
                                    'if not name:\n        return\n    native.filegroup(name = name + "_2")\n'),
    "a macro that isn't called": ('load(":m.bzl", "m")\nm("x")\n', L + "def m(name):\n    native.filegroup(name = name)\ndef n(name):\n    for it in SOME:\n        native.filegroup(name = name + it)\n"),
    "a loop of structs without a field": ('load(":m.bzl", "m")\nm()\n', 'def o(fast = True):\n    return struct()\nSOME = {"x": o()}\ndef m():\n    for it, options in SOME.items():\n        native.filegroup(name = it, tags = ["true"] if options else [])\n'),
    "a condition on a check": ('load(":m.bzl", "m")\nm("x")\n', L + 'def c(name):\n    fail(name)\ndef m(name):\n    if SOME:\n        c(name)\n    native.filegroup(name = name)\n'),
}


def loops(bench):
    """Loops and conditions that declare targets by a value that isn't there."""
    for what, (build, loaded, place, value) in LOOPS.items():
        bench.lay_out("ws", {"WORKSPACE": "", "a/BUILD": build, "a/m.bzl": loaded})
        line = f"bzlq: targets may be missing: 1 loop or condition declares targets by {value} of @r//:m.bzl, whose value isn't known: {place}\n"
        told(bench, f"{what}, by a value that isn't there", bench.run("bzlq //a:all", "ws"), "", [line], 3)
    bench.lay_out("ws", {"WORKSPACE": "", "a/BUILD": 'load(":m.bzl", "m")\nm()\n', "a/m.bzl": "def m():\n    rules = native.existing_rules()\n    for it in rules:\n        native.filegroup(name = it + \"_more\")\n"})
    line = "bzlq: targets may be missing: 1 loop or condition declares targets by existing_rules of native, whose value isn't known: a/m.bzl:3\n"
    told(bench, "a loop over all rules", bench.run("bzlq //a:all", "ws"), "", [line], 3)
    for what, (build, loaded) in OTHER_LOOPS.items():
        bench.lay_out("ws", {"WORKSPACE": "", "a/BUILD": build, "a/m.bzl": loaded})
        bench.compare(f"{what}, by a value that isn't there", "whose value isn't known" in bench.run("bzlq //a:all", "ws")[1], False)


def more_answers(bench):
    """The same by words that give more than one answer: queries, diff, affected."""
    value, line = LOSSES["value"][0], "1 of 2 targets of this answer is an approximation: value that isn't there 1\n"
    for what, files, query, output, status in (
            ("kinds, made up", LOSSES["kind"][0], 'kind("test", //a:t)', "//a:t\n", 3), ("a value", value, "//a:t", "//a:t\n", 3), ("a dict", LOSSES["dict"][0], "//a:t", "//a:t\n", 0),
            ("a loop", {"a/BUILD": LOOPS["a loop"][0]}, "//a:all", "", 3)):
        bench.lay_out("ws", {"WORKSPACE": "", **files})
        found = bench.run("bzlq queries -", "ws", f"{query}\n".encode())
        bench.compare(f"lost, in many queries: {what}", (found[0], found[2]), (f"=== 0 {output.count('//')} {query}\n{output}", status))
        if what == "a dict":
            bench.compare("lost, in many queries, by --strict", bench.run("bzlq --queries - --strict", "ws", f"{query}\n".encode())[2], 3)
    project = Project(bench, "diff", {"WORKSPACE": "", **value})
    told(bench, "lost, on both sides of bzlq diff", bench.run("bzlq diff HEAD 'deps(//a:t)'", "diff"), "", [f"diff: base: {line}", f"diff: head: {line}"], 3)
    project.write("a/BUILD", LOSSES["dict"][0]["a/BUILD"])
    told(bench, "lost, on one side", bench.run("bzlq diff HEAD 'deps(//a:t)'", "diff"), "- //a:b.c\n", [f"diff: base: {line}"], 3)
    project.commit()
    told(bench, "lost, and nothing lacks", bench.run("bzlq diff HEAD //a:t", "diff"), "", ["diff: head: 1 of 1 targets of this answer is an approximation: dict left out 1\n"], 0)
    found = changed(bench, "edges", {**value, "b/BUILD": 'filegroup(name = "u", srcs = ["u.c"])\n', "b/u.c": ""}, "b/u.c", "x", "--kind", "rule")
    told(bench, "lost, of what a change may concern", found, "//b:u\n", ["affected: 1 of the other targets may have edges that aren't known, so that more may be concerned: //a:t\n"], 0)


def packages(bench):
    """What package(..) says, in facts."""
    bench.lay_out("ws", {"WORKSPACE": "", "a/BUILD": '"""A package."""\npackage(\n    default_visibility = ["//b:__pkg__"],\n    default_testonly = True,\n)\nfilegroup(name = "x")\n',
                         "b/BUILD": 'package(default_visibility = V)\nV = []\n'})
    bench.compare("package(..) in facts", bench.run("bzlq --facts //a:x", "ws")[0].splitlines()[-1],
                  '{"package":"//a","file":"a/BUILD","line":2,"default_visibility":["//b:__pkg__"],"default_testonly":true}')


SUITE = {"a/BUILD": 'test_suite(name = "all_tests")\nsh_test(name = "x_test", srcs = ["x.sh"])\nsh_test(name = "y_test", srcs = ["y.sh"], tags = ["manual"])\n'}
SIZES = {"a/BUILD": 'load("@rules_cc//cc:defs.bzl", "cc_test")\ncc_test(name = "a", srcs = ["a.c"])\nsh_test(name = "b", srcs = ["b.sh"], size = "small")\n'
                    'load(":m.bzl", "m")\nm("c")\n', "a/m.bzl": 'def m(name):\n    native.sh_test(name = name, srcs = ["c.sh"], timeout = "long")\n'}
# of two packages the rules x and b give a visibility
SEEN = {"a/BUILD": 'filegroup(name = "x", visibility = ["//visibility:private"])\nfilegroup(name = "y", srcs = ["//b"])\n',
        "b/BUILD": 'filegroup(name = "b", visibility = ["//visibility:public"])\nfilegroup(name = "c")\n'}
# rules that Bazel takes as testonly though they don't say so: the test and the suite of a, one of b, and that of b+b
ONLY = {"a/BUILD": 'filegroup(name = "x", testonly = True)\nfilegroup(name = "y")\nsh_test(name = "t", srcs = ["t.sh"])\ntest_suite(name = "s", tests = [":t"])\n'
                   'sh_test(name = "u", srcs = ["t.sh"], testonly = False)\n',
        "b/BUILD": 'package(default_testonly = True)\nfilegroup(name = "b")\nfilegroup(name = "c", testonly = False)\n',
        "b+b/BUILD": 'V = True\npackage(default_testonly = V)\nfilegroup(name = "b")\n',
        "c/BUILD": 'package(default_testonly = False)\n# default_testonly = True\nfilegroup(name = "c")\n'}


def defaults(bench):
    """What Bazel takes where a test, or a suite of tests, says nothing."""
    bench.lay_out("ws", {"WORKSPACE": "", **SUITE})
    told(bench, "a suite of all tests", bench.run("bzlq 'deps(//a:all_tests)'", "ws"), "//a:all_tests\n//a:x.sh\n//a:x_test\n", [""], 0)
    bench.lay_out("ws", {"WORKSPACE": "", **SIZES})
    for query, output in (("attr(size, medium, //...)", "//a:a\n//a:c\n"), ("attr(timeout, moderate, //...)", "//a:a\n"), ("attr(timeout, short, //...)", "//a:b\n"),
                          ("attr(shard_count, \"-1\", //...)", "//a:a\n//a:b\n//a:c\n"), ("attr(flaky, 0, //...)", "//a:a\n//a:b\n//a:c\n")):
        told(bench, query, bench.run(f"bzlq '{query}'", "ws"), output, [""], 0)
    bench.lay_out("ws", {"WORKSPACE": "", **SEEN})
    line = "bzlq: {} of the targets that this query looks through {} no visibility, and attr(..) leaves out what Bazel takes instead\n".format
    for query, output, said in (("attr(visibility, private, //a:all)", "//a:x\n", line(1, "gives")), ("attr(\"visibility\", public, deps(//a:y) + //b:all)", "//b:b\n", line(2, "give")),
                                ("let v = //a:all in attr(visibility, private, $v)", "//a:x\n", line(2, "give"))):
        told(bench, query, bench.run(f"bzlq '{query}'", "ws"), output, [said], 3)
    found = bench.run("bzlq queries -", "ws", b"attr(visibility, private, //a:all)\n")
    bench.compare("visibilities, in many queries", found, ("=== 0 1 attr(visibility, private, //a:all)\n//a:x\n", "bzlq: 2 of the targets of the workspace give no visibility, and attr(..) leaves out what Bazel takes instead\n", 3))
    bench.compare("a visibility of each", bench.run("bzlq 'attr(visibility, private, //a:x) + attr(tags, x, //a:y)'", "ws"), ("//a:x\n", "", 0))
    bench.lay_out("ws", {"WORKSPACE": "", **ONLY})
    line = "bzlq: {} of the targets {} may be testonly by a default of Bazel's (tests, default_testonly), and attr(..) takes {} as not\n".format
    looked = "that this query looks through"
    for query, output, said in (("attr(testonly, 1, //...)", "//a:x\n", line(4, looked, "them")), ("attr('testonly', 0, //b:b)", "//b:b\n", line(1, looked, "it")),
                                ("attr(testonly, 1, deps(//a:s)) + attr(testonly, 1, //c:*)", "", line(2, looked, "them")), ("let v = //a:t in attr(testonly, 1, $v)", "", line(4, looked, "them"))):
        told(bench, query, bench.run(f'bzlq "{query}"'.replace("$", "\\$"), "ws"), output, [said], 3)
        told(bench, f"location: {query}", bench.run(f'bzlq --output location "{query}" | grep -o "//.*"'.replace("$", "\\$"), "ws"), output, [said], 0 if output else 1)
    found = bench.run("bzlq queries -", "ws", b"attr(testonly, 1, //a:all)\n")
    bench.compare("testonly, in many queries", found, ("=== 0 1 attr(testonly, 1, //a:all)\n//a:x\n", line(4, "of the workspace", "them"), 3))
    bench.compare("testonly of each", bench.run("bzlq 'attr(testonly, 1, //a:x) + attr(testonly, 0, //c:c + //a:y) + attr(tags, x, //b:b)'", "ws"), ("//a:x\n//a:y\n//c:c\n", "", 0))
    bench.lay_out("ws", {"WORKSPACE": "", **ONLY, "d/BUILD": 'package(default_testonly = True)\nfilegroup(\n'})
    told(bench, "testonly, where a package doesn't load", bench.run("bzlq 'attr(testonly, 1, //...)'", "ws"), "//a:x\n", [line(4, looked, "them")], 3)
    bench.run("cp $(bzlq --bundle-path) ../bundle", "ws")
    bench.lay_out("plain", {**ONLY, "rules.schema": "rule filegroup\nrule sh_test\nattr srcs label_list\nrule test_suite\nattr tests label_list\n"})
    for where in ("", " --bundle ../bundle", " --dir ../plain"):
        _, *found = bench.run(f"bzlq graph{where} 'attr(testonly, 1, //...)'", "ws")
        told(bench, f"testonly, by graph{where}", ("", *found), "", [f"graph: {line(4, looked, 'them')[6:]}"], 3)
    with mock.patch.object(approximations, "looking_through", wraps=approximations.looking_through) as made:
        found = approximations.Queries("rdeps(//..., //a:x) + attr(testonly, 1, //a:t)", f"{bench.room}/bundle")
        counted = found.lost([2] * len(found.all), lambda query: [mock.Mock(attributes={}), mock.Mock(attributes={"testonly": 0})])
    bench.compare("what a query looks through, made once", (made.call_count, counted.inner, counted.unmarked), (1, 2, 1))
    answer = bench.run("bzlq ask", "ws", b"attr(testonly, 1, //...)\n")
    told(bench, "testonly, at the prompt", answer, "//a:x\n", [line(4, looked, "them")], answer[2])


def mistakes(bench):
    """Mistakes that are said over an overlay as they are without one; and that no stub is made for a file of a package that is there."""
    for what in ("a typo in a rule's name", "a wrong attribute", "a wrong attribute in a macro", "a value of a wrong type", "a .bzl file that isn't there"):
        files, query, _ = MISTAKES[what]
        bench.lay_out("w", {**WORKSPACE, **files})
        wanted = bench.run(f"bq --dir w '{query}' 2>&1 >/dev/null | bzlq hints w")[0].replace("w/", "").splitlines()[0]
        told(bench, f"bzlq, {what}", bench.run(f"bzlq '{query}' 2>&1 >/dev/null | grep '{wanted[:12]}'", "w"), f"{wanted}\n", [""], 0)
    bench.lay_out("w", {**WORKSPACE, "app/BUILD": PACKED})
    told(bench, "bzlq, attributes of rules_pkg", bench.run("bzlq //app:all", "w"), "//app:d\n//app:t\n//app:z\n", [""], 0)
    bench.lay_out("w", {**WORKSPACE, "app/BUILD": 'load("//tools:defs.bzl", "SRCS")\nfilegroup(name = "x", srcs = SRCS)\n', "tools/defs.bzl": WORKSPACE["tools/defs.bzl"] + 'SRCS = ["a"]\ndef other(name):\n    if native.read_config("a", "b", None):\n        fail(name)\n'})
    told(bench, "bzlq, a function of Buck in one that isn't called", bench.run("bzlq 'deps(//app:x)'", "w"), "//app:a\n//app:x\n", [""], 0)
    for what, text, line in OTHERS:
        bench.lay_out("w", {**WORKSPACE, "app/BUILD": text})
        told(bench, f"bzlq, {what}", bench.run("bzlq //app:all 2>&1 >/dev/null | grep app/BUILD", "w"), f"{line}\n", [""], 0)


# attributes that are near others by their names
PACKED = ('load("@rules_pkg//pkg:pkg.bzl", "pkg_deb", "pkg_tar", "pkg_zip")\n'
          + "".join(f'pkg_{kind}(name = "{kind[0]}", package_file_name = "x-{{version}}", package_variables = "//log")\n' for kind in ("deb", "tar", "zip")))
OTHERS = (
    ("a mandatory attribute", 'genrule(name = "g", cmd = "x")\n', "app/BUILD:1:1: F72 MissingAttribute: the rule genrule misses the attribute 'outs'"),
    ("a select in a list", 'filegroup(name = "x", srcs = ["a", select({"//conditions:default": "b"})])\n', 'app/BUILD:1:1: F56 Fail: "a select in a list: write [..] + select(..)"'),
    *((f"a select in a list, of {it}", f'filegroup(name = "x", srcs = ["a", select({{"//log": {it}}})])\n', 'app/BUILD:1:1: F56 Fail: "a select in a list: write [..] + select(..)"')
      for it in ('["b"]', "None", '""')),
    ("a wrong attribute of a rule that is loaded", 'load("@rules_cc//cc:defs.bzl", "cc_library")\ncc_library(name = "x", scrs = ["a.c"])\n',
     "app/BUILD:2:24: F71 NoAttribute: no attribute 'scrs' in rule 'cc_library' (did you mean 'srcs'?)"),
    ("a wrong attribute beside a select", 'filegroup(name = "x", dta = select({"//conditions:default": ["b"]}))\n',
     "app/BUILD:1:23: F71 NoAttribute: no attribute 'dta' in rule 'filegroup' (did you mean 'data'?)"),
)


def rows(bench):
    """The page has a row for each word."""
    with open(PAGE, encoding="utf-8") as file:
        table = file.read().partition("### What can be missing, and what says so")[2].partition("\n## ")[0]
    bench.compare("the words of the page", re.findall(r"^\| `(\w+)` \|", table, re.M), [*LOST])


GUESSED = {"a/BUILD": 'load("@r//:m.bzl", "pack")\npack(name = "t", odd_of = ["a.txt"])\n', "a/a.txt": ""}


def guessed(bench):
    """A file that is named where no label is looked for."""
    told(bench, "a file in an attribute of a guessed type", changed(bench, "guessed", GUESSED, "a/a.txt", "x"), "//a:t\n", ["1 affected\n"], 0)


# rules of the workspace's own with defaults: of labels, by texts, names and a function, and of other types
OWN_RULES = {
    "tools/BUILD": 'sh_binary(name = "gen", srcs = ["gen.sh"])\nfilegroup(name = "named", srcs = ["named.sh"])\nexports_files(["more.txt", "made.sh"])\n',
    "tools/names.bzl": 'NAMED = "//tools:named"\nLEVEL = 3\n', "tools/gen.sh": "", "tools/named.sh": "", "tools/more.txt": "", "tools/made.sh": "", "tools/other.sh": "",
    "tools/defs.bzl": 'load(":names.bzl", "LEVEL", TOOL = "NAMED")\ndef _impl(ctx):\n    pass\ndef _made(name):\n    return Label("//tools:made.sh")\n_MODE = "fast"\n'
                      '_COMMON = {"_named": attr.label(default = TOOL)}\n'
                      'mine = rule(\n    implementation = _impl,\n    attrs = dict(_COMMON, mode = attr.string(default = _MODE), level = attr.int(default = -3), strict = attr.bool(default = True),\n'
                      '        opts = attr.string_list(default = ["-O2"]), _tool = attr.label(default = Label("//tools:gen"), executable = True),\n'
                      '        _more = attr.label_list(default = [":more.txt"]), _made = attr.label(default = _made)),\n)\nother = rule(implementation = _impl, attrs = {"mode": attr.string()})\n',
    "a/BUILD": 'load("//tools:defs.bzl", "mine", "other")\nmine(name = "x")\nmine(name = "y", mode = "slow", level = 1, strict = False, opts = [])\nmine(name = "z", mode = None)\nother(name = "o")\n',
    "b/BUILD": 'filegroup(name = "b", srcs = ["//a:x"])\nfilegroup(name = "mine")\n',
}


# packages that Bazel's query doesn't have: b and c by options, d/n and what is below it by a pattern
TAKEN = {
    ".bazelrc": "build --deleted_packages=a\n# query --deleted_packages=a\nquery --noshow_progress --deleted_packages=//b\nimport %workspace%/more.bazelrc\ntry-import none.bazelrc\n",
    "more.bazelrc": "common --deleted_packages c,\\\nx\ncommon:ci --deleted_packages=a\n", "REPO.bazel": 'ignore_directories(["**/n"])\n',
    **{f"{it}/BUILD": 'filegroup(name = "x")\n' for it in ("a", "b", "c", "d/n/e", "d")},
}


def taken_away(bench):
    """Targets of packages that Bazel's query doesn't have are told."""
    bench.lay_out("ws", TAKEN)
    line = "bzlq: {} of this answer {} in packages that {} takes away from Bazel's query\n".format
    lines = [line("1 label", "is", "--deleted_packages of .bazelrc"), line("1 label", "is", "--deleted_packages of more.bazelrc"), line("1 label", "is", "ignore_directories of REPO.bazel")]
    told(bench, "packages that Bazel's query doesn't have", bench.run("bzlq //...", "ws"), "//a:x\n//b:x\n//c:x\n//d/n/e:x\n//d:x\n", lines, 0)
    bench.compare("those that it has", bench.run("bzlq //a:x + //d:x", "ws"), ("//a:x\n//d:x\n", "", 0))
    told(bench, "places of such", bench.run("bzlq --output location //b/...", "ws"), "b/BUILD:1: filegroup rule //b:x\n", [lines[0]], 0)


PRELUDE = {"tools/build_rules/BUILD": "", "tools/build_rules/prelude_bazel": 'load("//a:m.bzl", "filegroup")\n', "a/BUILD": 'filegroup(name = "x", srcs = ["x.c"])\n', "a/x.c": "", "a/m.bzl": ""}


def prelude(bench):
    """What Bazel puts before each BUILD file."""
    bench.lay_out("ws", {"WORKSPACE": "", **PRELUDE})
    line = "targets may be missing: {}tools/build_rules/prelude_bazel, which Bazel puts before each BUILD file, isn't read\n".format
    told(bench, "a prelude", bench.run("bzlq //a:all", "ws"), "//a:x\n", [f"bzlq: {line('')}"], 3)
    told(bench, "a prelude, by affected", changed(bench, "prelude", PRELUDE, "a/x.c", "x", "--kind", "rule"), "//a:x\n", [f"affected: {line('base: ')}"], 3)
    bench.lay_out("ws", {"WORKSPACE": "", **PRELUDE, "tools/build_rules/prelude_bazel": "# nothing\n\n"})
    bench.compare("an empty prelude", bench.run("bzlq //a:all", "ws")[2], 0)


# what has a default in Bazel that neither its type says nor the data have: linkstatic of bin, pure of the go_binary, deprecation of old
OTHER_DEFAULTS = {
    "a/BUILD": 'load("@io_bazel_rules_go//go:def.bzl", "go_binary")\ncc_binary(name = "bin")\ncc_binary(name = "given", linkstatic = True)\ncc_library(name = "lib", tags = ["manual"])\nconfig_setting(name = "c", values = {"cpu": "x"})\n'
               'go_binary(name = "go", pure = "on")\ngo_binary(name = "go2")\nload(":m.bzl", "m")\nm("made")\n', "a/m.bzl": "def m(name):\n    native.filegroup(name = name)\n",
    "b/BUILD": 'package(default_deprecation = "gone")\nfilegroup(name = "old")\nfilegroup(name = "older", deprecation = "long gone")\n',
}


def other_defaults(bench):
    """Attributes whose defaults aren't known here are told where a query asks for them."""
    bench.lay_out("ws", {"WORKSPACE": "", **OTHER_DEFAULTS})
    line = "bzlq: 1 of the targets {} gives no {}, and attr(..) leaves out what Bazel takes instead\n".format
    looked, of = "that this query looks through", "of the workspace"
    absent = "bzlq: bq has no generator_function, which Bazel gives the targets of macros, and attr(..) leaves these out: bzlq users MACRO lists them\n"
    cases = (("attr(linkstatic, 1, //...)", "//a:given\n", "linkstatic"), ("attr(tags, manual, //...)", "//a:lib\n", "tags"), ("attr(pure, on, //...)", "//a:go\n", "pure"), ("attr(\"deprecation\", gone, //...)", "//b:older\n", "deprecation"))
    for query, output, name in cases:
        told(bench, query, bench.run(f"bzlq '{query}'", "ws"), output, [line(looked, name)], 3)
        found = bench.run("bzlq queries -", "ws", f"{query}\n".encode())
        told(bench, f"{query}, in many queries", found, f"=== 0 1 {query}\n{output}", [line(of, name)], 3)
    told(bench, "attributes of macros", bench.run("bzlq '//a:bin + attr(generator_function, m, //...)'", "ws"), "//a:bin\n", [absent], 3)
    told(bench, "attributes of macros, in many queries", bench.run("bzlq queries -", "ws", b"attr(generator_function, m, //...)\n"), "=== 0 0 attr(generator_function, m, //...)\n", [absent], 3)
    told(bench, "attributes of macros, by graph", ("", *bench.run("bzlq graph 'attr(generator_function, m, //...)'", "ws")[1:]), "", [absent.replace("bzlq: bq", "graph: bq")], 3)
    for query, output in (("attr(linkstatic, 1, //a:given + //a:lib)", "//a:given\n"), ("attr(tags, x, //...)", ""), ("attr(linkstatic, \".\", //a:bin + //a:lib)", "//a:bin\n//a:lib\n"), ("attr(deprecation, gone, //a:all)", ""), ("attr(name, go2, //...)", "//a:go2\n")):
        bench.compare(f"{query}, with no such default", bench.run(f"bzlq '{query}' | cat", "ws")[1].count("leaves out"), 0)


def own_rules(bench):
    """Defaults of the workspace's own rules: attr(..) has them, and a change of a tool concerns what it makes."""
    bench.lay_out("ws", {"WORKSPACE": "", **OWN_RULES})
    for query, output in (("attr(mode, fast, //...)", "//a:x\n//a:z\n"), ("attr(level, \"-3\", //...)", "//a:x\n//a:z\n"), ("attr(strict, 1, //...)", "//a:x\n//a:z\n"),
                          ("attr(opts, O2, //...)", "//a:x\n//a:z\n"), ("attr(mode, slow, //...)", "//a:y\n"), ("deps(//a:x)", "//a:x\n")):
        told(bench, f"defaults of own rules: {query}", bench.run(f"bzlq '{query}'", "ws"), output, [""], 0)
    for path in ("gen.sh", "named.sh", "more.txt", "made.sh"):
        found = changed(bench, "own", OWN_RULES, f"tools/{path}", "x", "--kind", "'^(mine|other|filegroup) rule'")
        is_named = "//tools:named\n" if path == "named.sh" else ""
        told(bench, f"a default of own rules: {path}", found, f"//a:x\n//a:y\n//a:z\n//b:b\n{is_named}", [f"{5 if is_named else 4} affected\n"], 0)
    told(bench, "no default of own rules", changed(bench, "own", OWN_RULES, "tools/other.sh", "x"), "", ["affected: in no target: tools/other.sh\n"], 0)


# rules whose definitions don't show all defaults: names and dicts of other files, sums, functions, labels, a rule that a function makes
HIDDEN = {
    "tools/BUILD": "", "tools/names.bzl": 'LEVEL = 3\nMODE = "fast"\nOPTS = ["-a"]\nOPTS.append("-b")\ndef text(x):\n    return x + "er"\n',
    "tools/common.bzl": 'load(":names.bzl", "MODE")\nCOMMON = {"mode": attr.string(default = MODE), "speed": attr.string(default = "high")}\nPLAIN = {"mode": attr.string()}\nPLAIN["speed"] = attr.string(default = "low")\n'
                        'SPEED = attr.string(default = "high")\ndef more_attrs():\n    return {"made": attr.string(default = "m")}\n',
    "tools/defs.bzl": 'load(":names.bzl", "LEVEL", "MODE", "OPTS", "text")\nload(":common.bzl", "COMMON", "PLAIN", "SPEED", "more_attrs")\nload("@r//:m.bzl", "MORE")\ndef _impl(ctx):\n    pass\n'
                      '_A = {"one": attr.string(default = "a1")}\n_B = dict(_A, two = attr.string(default = "b" + "2"))\ndef _make(d):\n    return rule(implementation = _impl, attrs = {"mode": attr.string(default = d)})\n'
                      + "".join(f"{name} = rule(implementation = _impl, attrs = {attributes})\n" for name, attributes in {
                          "loaded": '{"level": attr.int(default = LEVEL)}', "called": '{"mode": attr.string(default = text("fast"))}', "changed": '{"opts": attr.string_list(default = OPTS)}',
                          "merged": 'dict(COMMON, level = attr.int(default = 4))', "joined": '{"speed": attr.string(), "level": attr.int(default = 5)} | COMMON', "splat": '{"one": attr.string(), "two": attr.string(), "speed": SPEED, "mode": MODE} | dict(**_B)',
                          "added": "PLAIN", "by": "more_attrs()", "of": '{"mode": attr.string()} | MORE', "tool": '{"tool": attr.label(default = "//tools:gen"), "_other": attr.label(default = "//x"), "env": attr.string_dict(default = {"a": "b"})}',
                      }.items()) + 'made_by = _make("fast")\n',
    "a/BUILD": 'load("//tools:defs.bzl", "added", "by", "called", "changed", "joined", "loaded", "made_by", "merged", "of", "splat", "tool")\n'
               + "".join(f'{it}(name = "{it}")\n' for it in ("loaded", "merged", "joined", "splat")),
}
# the rules of further targets, a query, its answer, and how many targets may have the attribute that it asks for
HIDDEN_DEFAULTS = (
    ((), "attr(level, 3, //...)", "loaded", 0), ((), "attr(mode, fast, //...)", "joined merged", 1), ((), "attr(speed, high, //...)", "joined merged splat", 0), ((), 'attr(level, "[45]", //...)', "joined merged", 0),
    ((), "attr(one, a1, //...)", "splat", 0), ((), "attr(two, b2, //...)", "splat", 0), (("called",), "attr(mode, fast, //a:called)", "", 1), (("changed",), "attr(opts, b, //a:changed)", "", 1),
    (("changed",), "attr(mode, b, //a:changed)", "", 0), (("added",), "attr(speed, low, //a:added)", "added", 0), (("added",), "attr(mode, fast, //a:added)", "", 0), (("by",), "attr(made, m, //a:by)", "", 1), (("by",), "attr(tags, m, //a:by)", "", 0),
    (("of",), "attr(speed, m, //a:of)", "", 1), (("of",), "attr(mode, m, //a:of)", "", 1), (("tool",), "attr(tool, gen, //a:tool)", "", 1), (("tool",), "attr(env, a, //a:tool)", "", 1), (("tool",), "attr(_other, x, //a:tool)", "", 0), (("made_by",), "attr(mode, fast, //...)", "joined merged", 2),
    (("made_by",), "attr(tags, x, //...)", "", 0),
)


def hidden_defaults(bench):
    """Defaults of the workspace's own rules that aren't where the rule is made: attr(..) has them, or says that it leaves some out."""
    for further, query, output, count in HIDDEN_DEFAULTS:
        bench.lay_out("ws", {"WORKSPACE": "", **HIDDEN, "a/BUILD": HIDDEN["a/BUILD"] + "".join(f'{it}(name = "{it}")\n' for it in further)})
        found = bench.run(f"bzlq {quoted(query)}", "ws")
        said = [it for it in found[1].splitlines() if "and attr(..) leaves out" in it]
        name = query.partition("(")[2].partition(",")[0]
        line = f"bzlq: {count} of the targets that this query looks through {'gives' if count == 1 else 'give'} no {name}, and attr(..) leaves out what Bazel takes instead"
        bench.compare(f"a default that isn't shown: {query}", (found[0].split(), said, found[2]), ([f"//a:{it}" for it in output.split()], [line] if count else [], 3 if count else 0))
    bench.lay_out("ws", {"WORKSPACE": "", "a/BUILD": R + 'junit_tests(name = "t", srcs = ["T.java"])\njunit_tests(name = "u", size = "small")\n', "a/T.java": ""})
    line = "bzlq: 1 of the targets that this query looks through gives no size, and attr(..) leaves out what Bazel takes instead\n"
    told(bench, "a size of a kind that was made up", bench.run("bzlq 'attr(size, medium, //...)'", "ws"), "", [line], 3)
    bench.lay_out("made", {"WORKSPACE": "", "a/BUILD": 'load(":m.bzl", "x_test")\nx_test(name = "x")\n', "a/m.bzl": 'load("@bazel_skylib//lib:unittest.bzl", "analysistest")\nx_test = analysistest.make(None)\n'})
    told(bench, "a size of a test that skylib makes", bench.run("bzlq 'attr(size, medium, //...)'", "made"), "//a:x\n", [""], 0)
    found = bench.run("bzlq queries -", "ws", b"attr(size, small, //...)\n")
    told(bench, "such a size, in many queries", found, "=== 0 1 attr(size, small, //...)\n//a:u\n", [line.replace("that this query looks through", "of the workspace")], 3)


# symbolic macros with defaults: labels, names and dicts of other files, and a sum with a name
SYMBOLIC = {
    "tools/BUILD": 'filegroup(name = "x")\nfilegroup(name = "d")\n', "tools/common.bzl": 'ATTRS = {"srcs": attr.label_list(), "extra": attr.string(default = "e")}\nMODE = "fast"\n',
    "tools/defs.bzl": 'load(":common.bzl", "ATTRS", "MODE")\nD = [":d"]\ndef _impl(name, visibility, srcs = None, deps = None, mode = "none", extra = "none"):\n'
                      '    native.filegroup(name = name, srcs = srcs, data = deps, tags = [mode, extra])\ndef _impl_n(**given):\n    _impl(**given)\n'
                      'm = macro(implementation = _impl, attrs = {"deps": attr.label_list(default = [Label("//tools:x")]), "mode": attr.string(default = MODE)})\n'
                      'n = macro(implementation = _impl_n, attrs = {"deps": attr.label_list(default = D), "mode": attr.string(default = "a" + MODE)})\n'
                      'o = macro(implementation = _impl, attrs = ATTRS | {"mode": attr.string(default = "z")})\n',
    "a/BUILD": 'load("//tools:defs.bzl", "m", "o")\nm(name = "m")\no(name = "o")\n', "b/BUILD": 'load("//tools:defs.bzl", "n")\nn(name = "n")\n',
}


def symbolic(bench):
    """Defaults of symbolic macros: targets have them, or say that they lack some."""
    bench.lay_out("ws", {"WORKSPACE": "", **SYMBOLIC})
    for query, output in (("deps(//a:m)", "//a:m\n//tools:x\n"), ("attr(tags, fast, //a:all)", "//a:m\n"), ("attr(tags, \"z, e\", //a:all)", "//a:o\n"), ("attr(tags, none, //a:all)", "//a:m\n")):
        told(bench, f"defaults of symbolic macros: {query}", bench.run(f"bzlq '{query}'", "ws"), output, [""], 0)
    told(bench, "a default of a symbolic macro that isn't shown", bench.run("bzlq 'deps(//b:n)'", "ws"), "//b:n\n//tools:d\n", ["1 of 2 targets of this answer is an approximation: value that isn't there 1\n"], 3)


REPLACED = {
    "WORKSPACE": "", "a/m.bzl": 'def m(name, srcs):\n    f = lambda: 0\n    native.filegroup(name = name, srcs = srcs)\n    native.filegroup(name = name + "_more")\n',
    "a/BUILD": 'load(":m.bzl", "m")\nm(name = "x", srcs = ["x.c"])\nfilegroup(name = "y", srcs = [":x_more"])\n', "b/BUILD": 'filegroup(name = "b", srcs = ["//a:x_more"])\n',
}


def replaced(bench):
    """Further targets of a macro of the tree that one target stands for."""
    bench.lay_out("ws", REPLACED)
    told(bench, "a further target of a macro that is replaced", bench.run("bzlq --output label_kind 'deps(//b)'", "ws"),
         "m rule //a:x\nsource file //a:x.c\nfilegroup rule //a:x_more\nfilegroup rule //b:b\n",
         ["bzlq: 2 of 4 targets of this answer are approximations: kind made up 1, one target for a macro 1\n"], 3)


def check(bench):
    """Tries all of it."""
    for part in (tests, settings, local, further, names, unreadable, losses, loops, more_answers, guessed, packages, defaults, mistakes, rows, replaced, own_rules, hidden_defaults, symbolic, other_defaults, taken_away, prelude):
        part(bench)
