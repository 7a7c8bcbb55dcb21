"""Mistakes that people make, each in a small workspace: what changes in its files, the query, and what Bazel 4.2.3 says of it.

(`W/` is the workspace. Bazel's texts are recorded: its own words, without the lines that follow from the first.)
"""
WORKSPACE = {
    "WORKSPACE": "",
    "app/BUILD": '''load("//tools:defs.bzl", "library")

filegroup(
    name = "app",
    srcs = glob(["*.c"]),
    data = ["//log"],
)
''',
    "app/main.c": "",
    "log/BUILD": '''load("//tools:defs.bzl", "library")

library("log")

genrule(
    name = "gen",
    srcs = ["log.c"],
    outs = ["log.txt"],
    cmd = "cp $< $@",
)
''',
    "log/log.c": "",
    "tools/BUILD": "",
    "tools/defs.bzl": '''def library(name, deps = []):
    native.filegroup(
        name = name,
        srcs = native.glob(["*.c"]) + deps,
    )
''',
}


def changed(path, old, new):
    """A file of the workspace with one text in the place of another."""
    assert old in WORKSPACE[path]
    return {path: WORKSPACE[path].replace(old, new, 1)}


INNER = "def inner(x):\n    y = 1\n    return x + y\n\n"
# what it is: (files that differ, query, what Bazel says)
MISTAKES = {
    "a typo in a rule's name": (changed("app/BUILD", "filegroup(", "filegruop("), "//...",
        "W/app/BUILD:3:1: name 'filegruop' is not defined (did you mean 'filegroup'?)"),
    "a load that is missing": ({"app/BUILD": 'library("app")\n'}, "//...",
        "W/app/BUILD:1:1: name 'library' is not defined (did you mean 'py_library'?)"),
    "a wrong attribute": (changed("app/BUILD", "data =", "dta ="), "//...",
        "W/app/BUILD:3:10: //app:app: no such attribute 'dta' in 'filegroup' rule"),
    "a wrong attribute in a macro": (changed("tools/defs.bzl", "srcs =", "sources ="), "//...",
        "W/log/BUILD:3:8: //log:log: no such attribute 'sources' in 'filegroup' rule"),
    "a cycle of loads": ({"tools/defs.bzl": 'load("//tools:b.bzl", "b")\n' + WORKSPACE["tools/defs.bzl"],
                          "tools/b.bzl": 'load("//tools:defs.bzl", "library")\nb = 1\n'}, "//...",
        "cycle detected in extension files: log/BUILD .-> //tools:defs.bzl | //tools:b.bzl `-- //tools:defs.bzl"),
    "a cycle of targets": ({"log/BUILD": 'filegroup(name = "log", srcs = ["//app"])\n'}, "deps(//app)", ""),
    "a glob that matches nothing": (changed("app/BUILD", 'glob(["*.c"])', 'glob(["*.cpp"], allow_empty = False)'), "//...",
        "Error in glob: glob pattern '*.cpp' didn't match anything, but allow_empty is set to False"),
    "a target twice": ({"app/BUILD": WORKSPACE["app/BUILD"] + '\nfilegroup(name = "app")\n'}, "//...",
        "Error in filegroup: filegroup rule 'app' in package 'app' conflicts with existing filegroup rule, defined at W/app/BUILD:3:10"),
    "a target that isn't there": (changed("app/BUILD", '"//log"', '"//log:lgo"'), "deps(//app)",
        "W/app/BUILD:3:10: no such target '//log:lgo': target 'lgo' not declared in package 'log' defined by W/log/BUILD and referenced by '//app:app'"),
    "a package that isn't there": (changed("app/BUILD", '"//log"', '"//lgo"'), "deps(//app)",
        "W/app/BUILD:3:10: no such package 'lgo': BUILD file not found in any of the following directories. Add a BUILD file to a directory to mark it as a package."),
    "a comma that is missing": (changed("app/BUILD", 'name = "app",', 'name = "app"'), "//...",
        "W/app/BUILD:5:5: syntax error at 'srcs': expected ,"),
    "a bracket that is open": (changed("app/BUILD", 'data = ["//log"],', 'data = ["//log",'), "//...",
        "W/app/BUILD:7:1: syntax error at ')': expected ]"),
    "a value of a wrong type": (changed("app/BUILD", 'data = ["//log"]', 'data = "//log"'), "//...",
        "W/app/BUILD:3:10: //app:app: expected value of type 'list(label)' for attribute 'data' in 'filegroup' rule, but got \"//log\" (string)"),
    "a symbol that the .bzl file doesn't have": (changed("app/BUILD", '"library"', '"libary"'), "//...",
        "Error: file '//tools:defs.bzl' does not contain symbol 'libary' (did you mean 'library'?)"),
    "a .bzl file that isn't there": (changed("app/BUILD", "defs.bzl", "def.bzl"), "//...",
        "error loading package 'app': cannot load '//tools:def.bzl': no such file"),
    "a macro that fails": (changed("tools/defs.bzl", "    native.f", '    if name == "log": fail("no library may be called log")\n    native.f'), "//...",
        "Traceback: W/log/BUILD, line 3, column 8; W/tools/defs.bzl, line 2, column 27, in library; Error in fail: no library may be called log"),
    "an error of types deep in a macro": ({"tools/defs.bzl": INNER + WORKSPACE["tools/defs.bzl"].replace(" + deps", " + inner(name)")}, "//...",
        "Traceback: W/log/BUILD, line 3, column 8; W/tools/defs.bzl, line 8, column 44, in library; line 3, column 14, in inner; "
        "Error: unsupported binary operation: string + int"),
    "a bad label": (changed("app/BUILD", '"//log"', '"//log::x"'), "//...",
        "W/app/BUILD:3:10: //app:app: invalid label '//log::x' in element 0 of attribute 'data' in 'filegroup' rule: invalid target name ':x': "
        "target names may not contain ':'"),
    "a query's target that isn't there": ({}, "deps(//app:ap)",
        "no such target '//app:ap': target 'ap' not declared in package 'app' defined by W/app/BUILD"),
    "a query's package that isn't there": ({}, "deps(//ap:app)",
        "no such package 'ap': BUILD file not found in any of the following directories. Add a BUILD file to a directory to mark it as a package."),
    "a query's wrong function": ({}, "dep(//app)", "Error while parsing 'dep(//app)': syntax error at '( //app )'"),
    "a parenthesis that is open": ({}, "kind(filegroup, deps(//app)", "Error while parsing 'kind(filegroup, deps(//app)': premature end of input"),
    "a parenthesis too many": ({}, "deps(//app))", "Error while parsing 'deps(//app))': unexpected token ')' after query expression 'deps(//app)'"),
    "too few arguments": ({}, "rdeps(//...)", "Error while parsing 'rdeps(//...)': syntax error at ')'"),
    "a bad regular expression": ({}, 'filter("*.c", //...)', "illegal 'filter' pattern regexp '*.c': Dangling meta character '*' near index 0"),
    "a kind that no target has": ({}, "kind(.*_tset, //...)", "INFO: Empty results"),
}
