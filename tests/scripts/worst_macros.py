"""Macros as large projects have them, in small: what bzlq finds of their targets is held to what Bazel's rules say, written here by hand.

Each workspace has the forms that cost TensorFlow and JGit most targets when an overlay couldn't read them: names bound to members of `native` and handed
on, tests of every file of a glob, selects in helper functions of helper functions, macros of repositories that aren't there. Of each rule stand its
kind and its edges as `bazel query` has them, with all branches and conditions of a select, and which words of docs/REAL_WORKSPACES.md say what was
made up of it. With a Bazel, `tests/scripts/edges --small` holds the same workspaces to that."""
import os

from bzlq.bq import facts

# TensorFlow: tensorflow.bzl and py.default.bzl
TENSORFLOW = {
    "WORKSPACE": 'workspace(name = "org_tensorflow")\n',
    "tensorflow/BUILD": 'config_setting(name = "android", values = {"crosstool_top": "//external:android"})\nconfig_setting(name = "windows", values = {"cpu": "x64_windows"})\n',
    "third_party/mkl/BUILD": 'config_setting(name = "build_with_mkl", define_values = {"build_with_mkl": "true"}, visibility = ["//visibility:public"])\nfilegroup(name = "blob")\n',
    "third_party/mkl/build_defs.bzl": 'def if_mkl(if_true, if_false = []):\n    return select({\n        "//third_party/mkl:build_with_mkl": if_true,\n        "//conditions:default": if_false,\n    })\n\n'
                                      'def mkl_deps():\n    return if_mkl(["//third_party/mkl:blob"])\n',
    "tensorflow/py.default.bzl": 'py_test = native.py_test\npy_library = native.py_library\n_cc_library = native.cc_library\n\ndef cc_library(**kwargs):\n    _cc_library(**kwargs)\n',
    "tensorflow/tensorflow.bzl": '''load("@local_config_cuda//cuda:build_defs.bzl", "if_cuda")
load("//third_party/mkl:build_defs.bzl", "if_mkl", "mkl_deps")
load("//tensorflow:py.default.bzl", "cc_library", _plain_py_test = "py_test")

VERSION = "2.14.1"
VERSION_MAJOR = VERSION.split(".")[0]
_SETTINGS = struct(options = ["-g"], level = 2)

def clean_dep(target):
    """Returns string to "target" in org_tensorflow."""
    return str(Label(target))

def if_android(a):
    return select({
        clean_dep("//tensorflow:android"): a,
        "//conditions:default": [],
    })

def tf_copts(level = "-O2"):
    return ["-DEIGEN", level] + if_android(["-mfpu=neon"]) + select({
        clean_dep("//tensorflow:windows"): ["/DPLATFORM_WINDOWS"],
        "//conditions:default": ["-pthread"],
    })

def src_to_test_name(src):
    return src.replace("/", "_").replace(":", "_").split(".")[0]

def tf_cc_test(name, srcs, deps, data = [], extra_copts = [], suffix = "", kernels = [], **kwargs):
    native.cc_test(
        name = "%s%s" % (name, suffix),
        srcs = srcs + if_android(["android.cc"]),
        copts = tf_copts() + extra_copts,
        data = data + kernels,
        deps = deps + mkl_deps(),
        **kwargs
    )

def tf_cc_tests(srcs, deps, name = "", tags = [], size = "medium", **kwargs):
    for src in srcs:
        tf_cc_test(
            name = src_to_test_name(src),
            size = size,
            srcs = [src],
            tags = tags,
            deps = deps,
            **kwargs
        )

def tf_kernel_library(name, prefix = None, srcs = None, hdrs = None, deps = None, alwayslink = 1, **kwargs):
    if not srcs:
        srcs = []
    if not hdrs:
        hdrs = []
    if not deps:
        deps = []
    if prefix:
        srcs = srcs + native.glob([prefix + "*.cc"], exclude = [prefix + "*test*", prefix + "*.cu.cc"])
        hdrs = hdrs + native.glob([prefix + "*.h"], exclude = [prefix + "*test*"])
    cc_library(
        name = name,
        srcs = srcs,
        hdrs = hdrs,
        alwayslink = alwayslink,
        deps = deps + if_mkl([clean_dep("//third_party/mkl:blob")]),
        **kwargs
    )

def tf_py_test(name, srcs, main = None, tags = [], deps = [], py_test = _plain_py_test, **kwargs):
    py_test(
        name = name,
        srcs = srcs,
        main = main or name + ".py",
        tags = tags,
        deps = [dep for dep in deps if dep] + [clean_dep("//tensorflow/python:base")],
        **kwargs
    )

def tf_gen_op_libs(op_lib_names, deps = None):
    for n in op_lib_names:
        cc_library(
            name = n + "_op_lib",
            srcs = ["ops/" + n + ".cc"],
            deps = (deps or []) + [clean_dep("//tensorflow/core:lib")],
            linkstatic = 1,
        )
''',
    "tensorflow/core/BUILD": '''load("//tensorflow:tensorflow.bzl", "tf_cc_test", "tf_cc_tests", "tf_gen_op_libs", "tf_kernel_library")

package(default_visibility = ["//visibility:public"])

tf_kernel_library(name = "lib", prefix = "lib")

tf_gen_op_libs(op_lib_names = ["array", "math"], deps = [":lib"])

tf_cc_tests(
    name = "tests",
    size = "small",
    srcs = ["a_test.cc", "sub/b_test.cc"],
    deps = [":lib"] + select({
        "//tensorflow:windows": [],
        "//conditions:default": [":array_op_lib"],
    }),
)

tf_cc_test(name = "one", srcs = ["one_test.cc"], deps = [":lib"], suffix = "_test", kernels = [":math_op_lib"])
''',
    **dict.fromkeys((f"tensorflow/core/{it}" for it in ("lib.cc", "lib_a.cc", "lib_test.cc", "lib_gpu.cu.cc", "lib.h", "a_test.cc", "sub/b_test.cc", "one_test.cc", "android.cc",
                                                         "ops/array.cc", "ops/math.cc")), ""),
    "tensorflow/python/BUILD": 'load("//tensorflow:tensorflow.bzl", "tf_py_test")\n\npy_library(name = "base", srcs = ["base.py"])\n\n'
                               'tf_py_test(name = "x_test", srcs = ["x_test.py"], deps = ["", ":base"], size = "large")\n',
    "tensorflow/python/base.py": "", "tensorflow/python/x_test.py": "",
}
MKL, ANDROID, WINDOWS = ["//third_party/mkl:blob", "//third_party/mkl:build_with_mkl"], "//tensorflow:android", "//tensorflow:windows"
CORE = "//tensorflow/core:"
TENSORFLOW_RULES = {
    f"{CORE}lib": ("cc_library", [*MKL, f"{CORE}lib.cc", f"{CORE}lib.h", f"{CORE}lib_a.cc"], []),
    f"{CORE}array_op_lib": ("cc_library", [f"{CORE}lib", f"{CORE}ops/array.cc"], []),
    f"{CORE}math_op_lib": ("cc_library", [f"{CORE}lib", f"{CORE}ops/math.cc"], []),
    f"{CORE}a_test": ("cc_test", [*MKL, ANDROID, WINDOWS, f"{CORE}a_test.cc", f"{CORE}android.cc", f"{CORE}array_op_lib", f"{CORE}lib"], []),
    f"{CORE}sub_b_test": ("cc_test", [*MKL, ANDROID, WINDOWS, f"{CORE}android.cc", f"{CORE}array_op_lib", f"{CORE}lib", f"{CORE}sub/b_test.cc"], []),
    f"{CORE}one_test": ("cc_test", [*MKL, ANDROID, WINDOWS, f"{CORE}android.cc", f"{CORE}lib", f"{CORE}math_op_lib", f"{CORE}one_test.cc"], []),
    "//tensorflow/python:base": ("py_library", ["//tensorflow/python:base.py"], []),
    "//tensorflow/python:x_test": ("py_test", ["//tensorflow/python:base", "//tensorflow/python:x_test.py"], []),
}

# JGit: tests.bzl of its tests, which come from a macro of another repository
JGIT = {
    "WORKSPACE": 'workspace(name = "jgit")\n',
    "org.eclipse.jgit.test/tests.bzl": '''load("@com_googlesource_gerrit_bazlets//tools:junit.bzl", "junit_tests")

def tests(tests, srcprefix = "tst/", extra_tags = []):
    for src in tests:
        name = src[len(srcprefix):len(src) - len(".java")].replace("/", "_")
        labels = []
        timeout = "moderate"
        if name.startswith("org_eclipse_jgit_"):
            package = name[len("org.eclipse.jgit_"):]
            if package.startswith("internal_storage_"):
                package = package[len("internal.storage_"):]
            index = package.find("_")
            if index > 0:
                labels.append(package[:index])
            else:
                labels.append(index)
        if "lib" not in labels:
            labels.append("lib")

        # TODO(http://eclip.se/534285): Make this test pass reliably
        # and remove the flaky attribute.
        flaky = src.endswith("CrissCrossMergeTest.java")
        additional_deps = []
        if src.endswith("ApplyTest.java"):
            additional_deps = ["//lib:assertj"]
        if src.endswith("SecurityManagerTest.java"):
            timeout = "long"
        junit_tests(
            name = name,
            srcs = [src],
            tags = labels + extra_tags,
            timeout = timeout,
            flaky = flaky,
            deps = additional_deps + ["//lib:junit"] + [":helpers"],
        )
''',
    "org.eclipse.jgit.test/BUILD": '''load("@com_googlesource_gerrit_bazlets//tools:genrule2.bzl", "genrule2")
load("@rules_java//java:defs.bzl", "java_library")
load(":tests.bzl", "tests")

HELPERS = glob(["src/**/*.java"]) + ["tst/Base.java"]

DATA = [
    "tst/Data.java",
]

tests(tests = glob(
    ["tst/**/*.java"],
    exclude = HELPERS + DATA,
))

java_library(
    name = "helpers",
    testonly = 1,
    srcs = HELPERS,
    resources = DATA,
    deps = ["//lib:junit"],
)

genrule2(name = "config", srcs = ["a.txt"], outs = ["b.txt"], cmd = "cp $< $@")
''',
    "lib/BUILD": 'java_library(name = "junit", exports = ["@junit//jar"])\n\njava_import(name = "assertj", jars = ["assertj.jar"])\n',
    **dict.fromkeys((f"org.eclipse.jgit.test/{it}" for it in ("src/H.java", "tst/Base.java", "tst/Data.java", "tst/org/eclipse/jgit/api/ApplyTest.java", "tst/org/eclipse/jgit/lib/RefTest.java",
                                                              "tst/org/eclipse/jgit/internal/storage/file/PackTest.java", "a.txt")), ""),
    "lib/assertj.jar": "",
}
OF = "//org.eclipse.jgit.test:"
JGIT_RULES = {
    f"{OF}org_eclipse_jgit_api_ApplyTest": ("junit_tests", ["//lib:assertj", "//lib:junit", f"{OF}helpers", f"{OF}tst/org/eclipse/jgit/api/ApplyTest.java"], ["kind"]),
    f"{OF}org_eclipse_jgit_lib_RefTest": ("junit_tests", ["//lib:junit", f"{OF}helpers", f"{OF}tst/org/eclipse/jgit/lib/RefTest.java"], ["kind"]),
    f"{OF}org_eclipse_jgit_internal_storage_file_PackTest": ("junit_tests", ["//lib:junit", f"{OF}helpers", f"{OF}tst/org/eclipse/jgit/internal/storage/file/PackTest.java"], ["kind"]),
    f"{OF}helpers": ("java_library", ["//lib:junit", f"{OF}src/H.java", f"{OF}tst/Base.java", f"{OF}tst/Data.java"], []),
    f"{OF}config": ("genrule2", [f"{OF}a.txt"], ["kind"]),
    "//lib:junit": ("java_library", ["@junit//jar:jar"], []),
    "//lib:assertj": ("java_import", ["//lib:assertj.jar"], []),
}

# gRPC, rules_rust and a workspace of modules: tests in loops over dicts and tuples, rules that a function of the tree makes, a symbolic macro
MODULES = {
    "MODULE.bazel": 'module(name = "small")\nbazel_dep(name = "rules_cc", version = "0.1")\n',
    "defs.bzl": '''load("@rules_cc//cc:defs.bzl", "cc_binary", "cc_test")

_POLLERS = {"linux": ["epoll1", "poll"], "windows": ["none"]}

def end2end_tests(name, deps = [], fixtures = {}):
    for fixture in sorted(fixtures):
        options = fixtures[fixture]
        for poller in _POLLERS["linux"] if options.get("poll", True) else [None]:
            cc_test(
                name = "%s_%s%s" % (name, fixture, "@" + poller if poller else ""),
                srcs = ["{}.cc".format(fixture)],
                deps = deps + options.get("deps", []),
                args = ["--fixture=" + fixture],
            )
    native.test_suite(name = name, tests = [":%s_%s@poll" % (name, it) for it, options in fixtures.items() if options.get("poll", True)])

def _pair_impl(name, visibility, srcs, deps):
    cc_binary(name = name, srcs = srcs, deps = deps, visibility = visibility)
    native.filegroup(name = name + "_files", srcs = srcs)

pair = macro(
    implementation = _pair_impl,
    attrs = {"srcs": attr.label_list(), "deps": attr.label_list(default = [])},
)

def _impl(ctx):
    return [DefaultInfo(files = depset(ctx.files.srcs))]

copied = rule(
    implementation = _impl,
    attrs = {"srcs": attr.label_list(allow_files = True), "of": attr.label()},
)
''',
    "BUILD": '''load(":defs.bzl", "copied", "end2end_tests", "pair")

end2end_tests(
    name = "e2e",
    deps = [":lib"],
    fixtures = {
        "h2": dict(deps = [":more"]),
        "inproc": {"poll": False},
    },
)

pair(name = "p", srcs = ["p.cc"], deps = [":lib"])

copied(name = "c", srcs = ["p.cc"], of = ":lib")

cc_library(name = "lib", srcs = ["lib.cc"])

cc_library(name = "more", hdrs = ["more.h"], deps = [":lib"])

[config_setting(name = it, values = {"define": it + "=1"}) for it in ["f", "g", "i", "j", "k"]]

cc_library(name = "chosen", hdrs = ["more.h"], deps = [":pair"] + select({":f": [":lib", ":more"], "//conditions:default": []}) + select({":g": [":lib", ":more"], "//conditions:default": []}) + select({":i": [":lib", ":more"], "//conditions:default": []}) + select({":j": [":lib", ":more"], "//conditions:default": []}) + select({":k": [":lib", ":more"], "//conditions:default": []}))

filegroup(name = "pair")
''',
    **dict.fromkeys(("h2.cc", "inproc.cc", "p.cc", "lib.cc", "more.h"), ""),
}
MODULES_RULES = {
    "//:e2e_h2@epoll1": ("cc_test", ["//:h2.cc", "//:lib", "//:more"], []),
    "//:e2e_h2@poll": ("cc_test", ["//:h2.cc", "//:lib", "//:more"], []),
    "//:e2e_inproc": ("cc_test", ["//:inproc.cc", "//:lib"], []),
    "//:e2e": ("test_suite", ["//:e2e_h2@poll"], []),
    "//:p": ("cc_binary", ["//:lib", "//:p.cc"], []),
    "//:p_files": ("filegroup", ["//:p.cc"], []),
    "//:c": ("copied", ["//:lib", "//:p.cc"], []),
    "//:lib": ("cc_library", ["//:lib.cc"], []),
    "//:more": ("cc_library", ["//:lib", "//:more.h"], []),
    **{f"//:{it}": ("config_setting", [], ["dict"]) for it in "fgijk"},
    "//:chosen": ("cc_library", ["//:f", "//:g", "//:i", "//:j", "//:k", "//:lib", "//:more", "//:more.h", "//:pair"], []),
    "//:pair": ("filegroup", [], []),
}

# name: the files, and of each rule of a package with tests its kind, its edges, and the words that say what was made up
SMALL = {"tensorflow": (TENSORFLOW, TENSORFLOW_RULES), "jgit": (JGIT, JGIT_RULES), "modules": (MODULES, MODULES_RULES)}


def check(bench):
    """Holds what bzlq finds to what stands here."""
    for name, (files, rules) in SMALL.items():
        bench.lay_out(name, files)
        path, errors, status = bench.run("bzlq --bundle-path", name)
        found = facts(path.strip(), program=bench.program)
        bench.compare(f"{name}: what is said of the overlay", (errors, status), ("bzlq: reading the workspace\n", 0))
        bench.compare(f"{name}: faults", [str(it) for it in found.faults], [])
        packages = {label.partition(":")[0] for label in rules}
        mine = {label: (it.kind.removesuffix(" rule"), sorted(it.deps), [text.partition(":")[0] for text in it.lost]) for label, it in found.targets.items()
                if it.kind.endswith(" rule") and label.partition(":")[0] in packages}
        for label in sorted(rules.keys() | mine):
            kind, edges, lost = rules.get(label, ("", [], []))
            bench.compare(f"{name}: {label}", mine.get(label), (kind, sorted(edges), lost) if kind else None)
        listed = bench.run("bzlq affected --tests HEAD", name)[0].splitlines() if change(bench, name) else []
        bench.compare(f"{name}: the tests of a change of all files", listed, sorted(label for label, (kind, *_) in rules.items() if "test" in kind and kind != "test_suite"))


def change(bench, name):
    """Commits all of a workspace, and changes the contents of all files but those that bq reads."""
    bench.run("git init -q; git add -A; git -c user.name=x -c user.email=x commit -qm x", name)
    for at, _, names in os.walk(f"{bench.room}/{name}"):
        for it in names:
            if ".git" not in at.split("/") and it.rpartition(".")[2] in ("cc", "java", "py"):
                with open(f"{at}/{it}", "a", encoding="utf-8") as file:
                    file.write("// x\n")
    return True
