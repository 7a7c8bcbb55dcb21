"""Tries more mistakes that people make: in files, each in a small workspace, and in queries. Beside each stand the lines that
bzlq writes; none is silent, and a fault of one file that follows from another's isn't repeated here.

(What Bazel 4.2.3 says of them is in docs/TOOLS.md for those of tests/scripts/mistakes.py alone.)
"""
BASE = {
    "WORKSPACE": "",
    "tools/BUILD": "",
    "tools/defs.bzl": "def library(name, deps = [], **kwargs):\n    native.filegroup(name = name, srcs = deps, **kwargs)\n    native.genrule(name = name + \"_gen\", outs = [name + \".out\"], cmd = \"touch $@\")\n\nVERSION = \"1\"\n",
    "lib/BUILD": "load(\"//tools:defs.bzl\", \"library\")\n\nlibrary(\n    name = \"lib\",\n    deps = [\"a.c\"],\n)\n",
    "lib/a.c": "",
    "lib/b.txt": "",
    "app/BUILD": "filegroup(\n    name = \"app\",\n    srcs = [\"main.c\"],\n    data = [\"//lib\"],\n)\n",
    "app/main.c": "",
}
# a rule of the workspace's own
OWN = "def _compiled(ctx):\n    return [DefaultInfo()]\n\ncompiled = rule(_compiled, attrs = {\"srcs\": attr.label_list(mandatory = True), \"mode\": attr.string(values = [\"fast\", \"small\"], default = \"fast\")})\n"
# what it is: (files that differ, the first line of what bzlq says)
FILES = {
    "a name without quotes": (
        {"app/BUILD": "filegroup(\n    name = app,\n    srcs = [\"main.c\"],\n)\n"},
        "app/BUILD:2:12: F20 UnknownName: name 'app' is not defined: write \"app\" if a text is meant"),
    "= in place of : in a dict": (
        {"app/BUILD": "D = {\"a\" = 1}\nfilegroup(name = \"app\", srcs = [\"main.c\"])\n"},
        "app/BUILD:1:10: F10 Syntax: a dict has ':' between a key and its value: write \"a\": .."),
    "an if statement in a BUILD file": (
        {"app/BUILD": "if True:\n    filegroup(name = \"app\", srcs = [\"main.c\"])\n"},
        "app/BUILD:1:1: F13 NotInBuild: a BUILD file has no if statement: move it into a macro, or write a conditional expression"),
    "tabs and spaces mixed in a def": (
        {"tools/defs.bzl": "def library(name, deps = [], **kwargs):\n\tnative.filegroup(name = name, srcs = deps, **kwargs)\n        native.genrule(name = name + \"_gen\", outs = [name + \".out\"], cmd = \"touch $@\")\n"},
        "tools/defs.bzl:2:1: F3 Tab: a tab in the indentation, which is spaces alone"),
    "f-string": (
        {"app/BUILD": "N = \"x\"\nfilegroup(name = f\"app{N}\", srcs = [\"main.c\"])\n"},
        "app/BUILD:2:18: F10 Syntax: f-strings are left out: write \"..%s\" % x, or \"..{}\".format(x)"),
    "True where 'true' is written": (
        {"app/BUILD": "genrule(name = \"g\", outs = [\"o\"], cmd = \"touch $@\", executable = true)\n"},
        "app/BUILD:1:66: F20 UnknownName: name 'true' is not defined (did you mean 'True'?)"),
    "a file of another package by a path": (
        {"app/BUILD": "filegroup(\n    name = \"app\",\n    srcs = [\"main.c\", \"../lib/a.c\"],\n)\n"},
        "app/BUILD:3:23: F78 BadLabel: '../lib/a.c' is no label: the name '../lib/a.c' has a segment '..'"),
    "a label that crosses a package": (
        {"app/BUILD": "filegroup(\n    name = \"app\",\n    srcs = [\"//:lib/a.c\"],\n)\n", "BUILD": ""},
        "app/BUILD:3:13: F79 DanglingLabel: package '' has no target 'lib/a.c': 'lib' is a package of its own: write //lib:a.c"),
    "an output that is also a source": (
        {"app/BUILD": "genrule(\n    name = \"g\",\n    srcs = [\"main.c\"],\n    outs = [\"main.c\"],\n    cmd = \"touch $@\",\n)\n"},
        "app/BUILD:1:1: F56 Fail: \"rule 'g' has the file 'main.c' as an input and as an output\""),
    "two rules make one output": (
        {"app/BUILD": "genrule(name = \"g\", outs = [\"o\"], cmd = \"\")\ngenrule(name = \"h\", outs = [\"o\"], cmd = \"\")\n"},
        "app/BUILD:2:9: F74 DoubleTarget: 'o' is an output of the call at app/BUILD:1 already"),
    "a mandatory attribute is missing": (
        {"app/BUILD": "genrule(\n    name = \"g\",\n    cmd = \"touch $@\",\n)\n"},
        "app/BUILD:1:1: F72 MissingAttribute: the rule genrule misses the attribute 'outs'"),
    "name is missing": (
        {"app/BUILD": "filegroup(\n    srcs = [\"main.c\"],\n)\n"},
        "app/BUILD:1:1: F72 MissingAttribute: the rule filegroup misses the attribute 'name'"),
    "an argument of a macro misspelt": (
        {"lib/BUILD": "load(\"//tools:defs.bzl\", \"library\")\nlibrary(name = \"lib\", dep = [\"a.c\"])\n"},
        "lib/BUILD:2:1: F71 NoAttribute: no attribute 'dep' in rule 'filegroup', at tools/defs.bzl:2:5 in library"),
    "a positional argument for a rule": (
        {"app/BUILD": "filegroup(\"app\", srcs = [\"main.c\"])\n"},
        "app/BUILD:1:1: F52 Args: the rule filegroup takes named arguments alone: name = \"app\""),
    "a loaded file without quotes' colon": (
        {"lib/BUILD": "load(\"//tools/defs.bzl\", \"library\")\nlibrary(name = \"lib\", deps = [\"a.c\"])\n"},
        "lib/BUILD:1:6: F32 NoPackage: 'tools/defs.bzl' is a file: write //tools:defs.bzl"),
    "load after use": (
        {"lib/BUILD": "library(name = \"lib\", deps = [\"a.c\"])\nload(\"//tools:defs.bzl\", \"library\")\n"},
        "lib/BUILD:1:1: F56 Fail: \"library is used before it is loaded, in line 2\""),
    "list + string": (
        {"app/BUILD": "filegroup(\n    name = \"app\",\n    srcs = [\"main.c\"] + \"x.c\",\n)\n"},
        "app/BUILD:3:12: F40 Type: unsupported operation: list + string, of ['main.c'] and \"x.c\""),
    "a loaded list is changed": (
        {"tools/defs.bzl": "L = [\"a\"]\ndef library(name, **kwargs):\n    L.append(name)\n    native.filegroup(name = name)\n"},
        "lib/BUILD:3:1: F47 Frozen: the list was made by another file, which has ended: change a copy, at tools/defs.bzl:3:5 in library"),
    "a key that the dict hasn't": (
        {"tools/defs.bzl": "D = {\"x\": 1}\ndef library(name, **kwargs):\n    native.filegroup(name = name + str(D[\"y\"]))\n"},
        "lib/BUILD:3:1: F44 NoKey: the dict has no key \"y\", at tools/defs.bzl:3:40 in library"),
    "select over strings in a list": (
        {"app/BUILD": "filegroup(\n    name = \"app\",\n    srcs = [\"main.c\", select({\"//conditions:default\": \"x.c\"})],\n)\n"},
        "app/BUILD:1:1: F56 Fail: \"a select in a list: write [..] + select(..)\""),
    "recursion": (
        {"tools/defs.bzl": "def f(n):\n    return f(n - 1) if n else 0\ndef library(name, **kwargs):\n    native.filegroup(name = name + str(f(2)))\n"},
        "lib/BUILD:3:1: F50 Recursion: f is running already: Starlark has no recursion, at tools/defs.bzl:2:12 in f, called at tools/defs.bzl:4:40 in library"),
    "native in a BUILD file": (
        {"app/BUILD": "native.filegroup(name = \"app\", srcs = [\"main.c\"])\n"},
        "app/BUILD:1:1: F20 UnknownName: name 'native' is not defined: it is for .bzl files; in a BUILD file write filegroup(..)"),
    "a rule called in a .bzl file's top level": (
        {"tools/defs.bzl": "native.filegroup(name = \"x\")\ndef library(name, **kwargs):\n    native.filegroup(name = name)\n"},
        "tools/defs.bzl:1:1: F70 NotInPackage: the rule filegroup is called while no BUILD file is evaluated: put the call into a function that a BUILD file calls"),
    "trailing comma makes a tuple": (
        {"app/BUILD": "NAME = \"app\",\nfilegroup(name = NAME, srcs = [\"main.c\"])\n"},
        "app/BUILD:1:13: F10 Syntax: a trailing comma is allowed inside brackets alone"),
    "a private symbol": (
        {"tools/defs.bzl": "def _library(name, **kwargs):\n    native.filegroup(name = name)\n", "lib/BUILD": "load(\"//tools:defs.bzl\", \"_library\")\n_library(name = \"lib\")\n"},
        "lib/BUILD:1:26: F34 PrivateSymbol: '_library' is private to its file, since it begins with '_'"),
    "an attribute that a rule of the workspace hasn't": (
        {"tools/defs.bzl": OWN, "lib/BUILD": "load(\"//tools:defs.bzl\", \"compiled\")\ncompiled(\n    name = \"lib\",\n    srcs = [\"a.c\"],\n    moed = \"fast\",\n)\n"},
        "lib/BUILD:2:1: F71 NoAttribute: no attribute 'moed' in rule 'compiled' (did you mean 'mode'?), at tools/defs.bzl:4:37 in compiled"),
    "the same in a macro": (
        {"tools/defs.bzl": OWN + "def library(name, **kwargs):\n    compiled(name = name, scrs = [], **kwargs)\n", "lib/BUILD": "load(\"//tools:defs.bzl\", \"library\")\nlibrary(name = \"lib\", srcs = [])\n"},
        "lib/BUILD:2:1: F71 NoAttribute: no attribute 'scrs' in rule 'compiled' (did you mean 'srcs'?), at tools/defs.bzl:4:37 in compiled, called at tools/defs.bzl:6:5 in library"),
    "an attribute that a rule of the workspace can't do without": (
        {"tools/defs.bzl": OWN, "lib/BUILD": "load(\"//tools:defs.bzl\", \"compiled\")\ncompiled(name = \"lib\")\n"},
        "lib/BUILD:2:1: F56 Fail: \"the rule compiled misses the attribute 'srcs'\", at tools/defs.bzl:4:55 in compiled"),
    "a value that an attribute doesn't take": (
        {"tools/defs.bzl": OWN, "lib/BUILD": "load(\"//tools:defs.bzl\", \"compiled\")\ncompiled(name = \"lib\", srcs = [], mode = \"fsat\")\n"},
        "lib/BUILD:2:1: F56 Fail: \"'mode' of compiled is one of 'fast', 'small', and not 'fsat'\", at tools/defs.bzl:4:55 in compiled"),
    "a name that nothing binds, in a macro": (
        {"tools/defs.bzl": "def library(name, deps = [], **kwargs):\n    native.filegroup(name = nmae, srcs = deps)\n"},
        "tools/defs.bzl:2:29: F20 UnknownName: name 'nmae' is not defined (did you mean 'name'?)"),
    "in a function that none calls": (
        {"tools/defs.bzl": "def library(name, deps):\n    native.filegroup(name = name, srcs = deps)\n\ndef other(x):\n    return x + [y for y in SORCES]\n"},
        "tools/defs.bzl:5:28: F20 UnknownName: name 'SORCES' is not defined: write \"SORCES\" if a text is meant"),
    "in what a rule does": (
        {"tools/defs.bzl": OWN.replace("DefaultInfo()", "DefaultInfo(files = depset(outs))") + "def library(name, deps):\n    compiled(name = name, srcs = deps)\n"},
        "tools/defs.bzl:1:1: F56 Fail: \"name 'outs' is not defined, in line 2\""),
    "a function that nothing binds": (
        {"tools/defs.bzl": "def library(name, deps):\n    native.filegroup(name = name, srcs = filtered(deps))\n"},
        "tools/defs.bzl:2:42: F20 UnknownName: name 'filtered' is not defined"),
    "a misspelt argument of a package": (
        {"app/BUILD": "package(defualt_visibility = [\"//visibility:public\"])\n\nfilegroup(name = \"app\")\n"},
        "app/BUILD:1:1: F56 Fail: \"package has no argument 'defualt_visibility' (did you mean 'default_visibility'?)\""),
    "a package that is declared twice": (
        {"app/BUILD": "package(default_testonly = 1)\n\nfilegroup(name = \"app\")\n\npackage(features = [])\n"},
        "app/BUILD:5:1: F56 Fail: \"package(..) is called a second time, after line 1\""),
    "a select of outputs": (
        {"app/BUILD": "genrule(\n    name = \"g\",\n    outs = select({\"//conditions:default\": [\"a.h\"]}),\n    cmd = \"touch $@\",\n)\n"},
        "app/BUILD:1:1: F56 Fail: \"a select in 'outs' of genrule, which takes none\""),
    "a misspelt rule in a macro": (
        {"tools/defs.bzl": "def library(name, deps):\n    native.filegruop(name = name, srcs = deps)\n"},
        "tools/defs.bzl:2:5: F20 UnknownName: name 'filegruop' is not defined (did you mean 'filegroup'?)"),
    "a flag without a default": (
        {"app/BUILD": "label_flag(name = \"f\")\n"},
        "app/BUILD:1:1: F72 MissingAttribute: the rule label_flag misses the attribute 'build_setting_default'"),
    "a label twice": (
        {"app/BUILD": "filegroup(\n    name = \"app\",\n    srcs = [\"main.c\", \"//lib\", \"//app:main.c\"],\n)\n"},
        "app/BUILD:1:1: F56 Fail: \"'//app:main.c' is twice in 'srcs' of filegroup\""),
    "a chain of comparisons": (
        {"tools/defs.bzl": "def library(name, deps):\n    if 0 < len(deps) < 3:\n        native.filegroup(name = name, srcs = deps)\n"},
        "tools/defs.bzl:2:12: F10 Syntax: one comparison doesn't follow another: write a < b and b < c"),
    "a load of all": (
        {"app/BUILD": "load(\"//tools:defs.bzl\", \"*\")\n\nfilegroup(name = \"app\")\n"},
        "app/BUILD:1:1: F56 Fail: \"load(..) names no symbol\""),
    "a load of nothing": (
        {"app/BUILD": "load(\"//tools:defs.bzl\")\n\nfilegroup(name = \"app\")\n"},
        "app/BUILD:1:1: F56 Fail: \"load(..) names no symbol\""),
    "a size that no test has": (
        {"app/BUILD": "sh_test(name = \"t\", srcs = [\"t.sh\"], size = \"tiny\")\n"},
        "app/BUILD:1:1: F56 Fail: \"'size' of sh_test is one of 'small', 'medium', 'large', 'enormous', and not 'tiny'\""),
    "a timeout that no test has": (
        {"app/BUILD": "sh_test(name = \"t\", srcs = [\"t.sh\"], timeout = \"small\")\n"},
        "app/BUILD:1:1: F56 Fail: \"'timeout' of sh_test is one of 'short', 'moderate', 'long', 'eternal', and not 'small'\""),
    "a size of what is no test": (
        {"app/BUILD": "sh_binary(\n    name = \"b\",\n    srcs = [\"t.sh\"],\n    size = \"small\",\n)\n"},
        "app/BUILD:4:5: F71 NoAttribute: no attribute 'size' in rule 'sh_binary'"),
}
# the query, and what bzlq says, by its last line
QUERIES = {
    "deps(//app, two)": "^ the depth is a number of 1 to 9 digits: deps(x) or deps(x, depth)",
    "kind(filegroup //...)": "^ an operator is missing between 'filegroup' and '//...'",
    "attr(tags fast, //...)": "^ an operator is missing between 'tags' and 'fast'",
    "//app/..": "^ this is no target pattern: the package 'app/..' has a segment '..'",
    "//app//...": "^ this is no target pattern: the package 'app/' has an empty segment",
    "//app:app:x": "^ this is no target pattern: the name 'app:x' has the character ':'",
    "deps(//app) and //lib": "^ 'and' is no operator of queries: write intersect",
    "deps(//app) & //lib": "^ '&' is no operator of queries: write intersect",
    "deps(//app)-//app:app": "",
    "rdeps(//app)": "^ rdeps takes 2 or 3 arguments, and 1 is given: rdeps(universe, x) or rdeps(universe, x, depth)",
    "allpaths(//app)": "^ allpaths takes 2 arguments, and 1 is given: allpaths(from, to)",
    "//app:": "^ this is no target pattern: the name is empty",
    "app": "",
    "@//app:app": "",
    "@@//app:app": "^ labels that begin with '@@' are left out",
    "//...:all-targets": "",
    "//App:app": "bq: Q6 NoSuchPackage: //App:app: there is no package 'App' (did you mean 'app'?)",
    "kind('filegroup', deps(//app)": "^ this parenthesis is never closed",
    "labels(src, //app)": "bzlq: nothing matches: no rule of the workspace has an attribute 'src' (did you mean 'srcs'?)",
    "rdeps(//..., //app::x)": "^ this is no target pattern: the name ':x' has the character ':'",
    "rdeps(//..., lib/ünï.txt)": "^ 'lib/ünï.txt' is no part of a query: put words with it in quotes",
    "rdeps(//..., 'lib/ünï.txt')": "^ this is no target pattern: the name 'ünï.txt' has the character 'ü'",
    "deps(\"//app\" //lib)": "^ an operator is missing between '\"//app\"' and '//lib'",
}

# those that are answered, as Bazel answers them; the others are refused
ANSWERS = {
    "deps(//app)-//app:app": "//app:main.c\n//lib:a.c\n//lib:lib\n",
    "app": "//app:app\n",
    "@//app:app": "//app:app\n",
    "//...:all-targets": "//app:BUILD\n//app:app\n//app:main.c\n//lib:BUILD\n//lib:a.c\n//lib:lib\n//lib:lib.out\n//lib:lib_gen\n//tools:BUILD\n",
    "labels(src, //app)": "",
}


def check(bench):
    """Each mistake, by bzlq and by bzlq lint."""
    for what, (files, line) in FILES.items():
        bench.lay_out("more", {**BASE, **files})
        found = bench.run("bzlq //...", "more")
        said = [it for it in found[1].splitlines() if not it.startswith(("bzlq: reading", "and "))]
        bench.compare(what, (said, found[2]), ([line], 3))
        path = line.partition(":")[0]
        bench.compare(f"{what}, by lint", bench.run(f"bzlq lint {path}", "more")[::2], (f"{line}\n", 1))
    bench.lay_out("more", BASE)
    bench.run("bzlq //app", "more")
    for query, line in QUERIES.items():
        found = bench.run(f"bzlq {quoted(query)}", "more")
        bench.compare(query, (found[0], (found[1].splitlines() or [""])[-1].strip(), found[2]), (ANSWERS.get(query, ""), line, 0 if query in ANSWERS else 2))


def quoted(text):
    """A word for a shell."""
    return "'" + text.replace("'", "'\\''") + "'"
