"""Tries tests/scripts/edges without a Bazel: which differences bzlq tells. Of a package of which it says that targets may be missing these are the rules
that are missing there, and the edges to them; a rule too many or of another kind isn't told by that, and neither is what another package lacks."""
import contextlib
import io

import kit
from bench import ROOT

# `unittest` as in bazel_skylib: what bq leaves out
FILES = {
    "WORKSPACE": "", "lib/BUILD": "", "lib/unittest.bzl": "def _suite(name, *tests):\n    [it(name = name) for it in tests]\nunittest = struct(suite = _suite)\n",
    "tests/BUILD": 'load(":a_tests.bzl", "a_suite")\na_suite()\nfilegroup(name = "f", srcs = ["a.c"])\ntest_suite(name = "all")\n',
    "tests/a_tests.bzl": 'load("//lib:unittest.bzl", "unittest")\nt_test = unittest.make(1)\ndef a_suite():\n    unittest.suite("a", t_test)\n',
    "deep/BUILD": 'load(":m.bzl", "m")\nm()\n', "deep/m.bzl": 'load("@r//:r.bzl", "made")\ndef n():\n    made()\ndef m():\n    n()\ndef other():\n    native.filegroup(name = "x")\n',
    "beside/BUILD": 'load("//deep:m.bzl", "other")\nother()\n', "loop/BUILD": 'load("@r//:r.bzl", "SOME")\n[filegroup(name = it) for it in SOME]\n',
    "plain/BUILD": 'filegroup(name = "p")\n',
}
# what Bazel has: a label, the kind, the edges, and srcs
BAZEL = (
    ("//tests:a", "test_suite", ["//tests:a_0"], ()), ("//tests:a_0", "t_test", [], ()), ("//tests:f", "filegroup", ["//tests:a.c", "//tests:a"], ["//tests:a.c", "//tests:a"]),
    ("//tests:all", "test_suite", ["//tests:a_0", "//plain:p_0"], ()), ("//deep:made", "made", [], ()), ("//loop:x", "filegroup", [], ()),
    ("//beside:y", "filegroup", [], ()), ("//plain:p", "genrule", ["//tests:a_0", "//tests:b.c"], ()), ("//plain:p_0", "sh_test", [], ()),
)
WANTED = """tree: 5 packages, 9 rules, 7 edges in Bazel; 14 differ, of which 8 are told
  //beside:x: no such rule in Bazel
  //beside:y: no such rule here
  //plain:p: filegroup here, genrule in Bazel
  //plain:p: no edge to //tests:b.c here
  //plain:p_0: no such rule here
  //tests:all: no edge to //plain:p_0 here
"""


def check(bench):
    """What bzlq says of a workspace, and what of the differences that tells."""
    edges = kit.module_of(f"{ROOT}/tests/scripts/edges")
    bench.lay_out("tree", FILES)
    bench.lay_out("whole", {"WORKSPACE": "", "plain/BUILD": FILES["plain/BUILD"]})
    mine, told = edges.ours(f"{bench.room}/tree", bench.program, bench.room)
    bench.compare("packages in which targets may be missing", told, edges.Told(set(), set(), {"//tests", "//deep", "//loop"}))
    bench.compare("a workspace that lacks nothing", edges.ours(f"{bench.room}/whole", bench.program, bench.room)[1], edges.Told())
    theirs = {label: edges.Rule(kind, set(deps), {"srcs": set(srcs)} if srcs else {}) for label, kind, deps, srcs in BAZEL}
    with contextlib.redirect_stdout(io.StringIO()) as said:
        untold = edges.report("tree", False, theirs, mine, told)
    bench.compare("differences beside Bazel", (said.getvalue(), untold), (WANTED, 6))
