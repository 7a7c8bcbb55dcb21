"""Workspaces of the size and shape of two large projects, for bench/overlay: takes a folder and a share of the size, writes the files.

`kubernetes` has many small packages of Go, which load one file of another repository each, and groups of all sources; `tensorflow` fewer and larger
ones, whose targets macros of the tree declare, with what an overlay has to replace: selects, dicts, values of other repositories, and labels that
lead to nothing.
"""
import os
import random


def put(folder, path, text=""):
    """Writes a file."""
    place = f"{folder}/{path}"
    os.makedirs(os.path.dirname(place), exist_ok=True)
    with open(place, "w", encoding="ascii") as file:
        file.write(text)


def listed(names, indent=8):
    """A list, an element on a line."""
    return "[\n" + "".join(f'{" " * indent}"{name}",\n' for name in names) + " " * (indent - 4) + "]"


def tree_of(count, fan, rng):
    """The paths of as many packages, each below one of those before it, `fan` at most."""
    found, below = ["pkg", "cmd", "staging/src", "vendor", "test", "plugin"], {}
    while len(found) < count:
        above = found[rng.randrange(len(found) // 8, len(found))]
        if below.setdefault(above, 0) < fan:
            below[above] += 1
            found.append(f"{above}/{'abcdefghij'[below[above] % 10]}{len(found)}")
    return found[:count]


GO = """load("@io_bazel_rules_go//go:def.bzl", "go_library", "go_test")

go_library(
    name = "go_default_library",
    srcs = {srcs},
    importpath = "k8s.io/kubernetes/{path}",
    visibility = ["//visibility:public"],
    deps = {deps},
)
{test}
filegroup(
    name = "package-srcs",
    srcs = glob(["**"]),
    tags = ["automanaged"],
    visibility = ["//visibility:private"],
)

filegroup(
    name = "all-srcs",
    srcs = {all},
    tags = ["automanaged"],
    visibility = ["//visibility:public"],
)
"""
GO_TEST = """
go_test(
    name = "go_default_test",
    srcs = {srcs},
    embed = [":go_default_library"],
    deps = {deps},
)
"""


def kubernetes(folder, share=1.0):
    """3,300 packages and 22,000 files, at a share of 1."""
    rng, paths = random.Random(1), None
    paths = tree_of(int(3300 * share), 12, rng)
    children = {path: [] for path in paths}
    for path in paths:
        if os.path.dirname(path) in children:
            children[os.path.dirname(path)].append(path)
    put(folder, "WORKSPACE", 'workspace(name = "io_k8s_kubernetes")\n')
    put(folder, "build/BUILD", 'load("@io_k8s_repo_infra//defs:build.bzl", "release_filegroup")\nrelease_filegroup(name = "all", srcs = ["//cmd:all-srcs"])\n')
    for at, path in enumerate(paths):
        sources, has_test = [f"f{n}.go" for n in range(rng.randint(1, 8))], rng.random() < 0.4
        deps = [f"//{it}:go_default_library" for it in rng.sample(paths[:at], min(at, rng.randint(0, 8)))]
        plain = listed(deps) if rng.random() < 0.9 else listed(deps) + ' + select({\n        "@io_bazel_rules_go//go/platform:linux": ["//vendor:go_default_library"],\n        "//conditions:default": [],\n    })'
        test = GO_TEST.format(srcs=listed(["f_test.go"]), deps=listed(deps[:3])) if has_test else ""
        text = GO.format(srcs=listed(sources), path=path, deps=plain, test=test, all=listed([":package-srcs", *(f"//{it}:all-srcs" for it in children[path])]))
        put(folder, f"{path}/BUILD", text)
        for name in [*sources, *(["f_test.go"] if has_test else []), "OWNERS", "doc.md"]:
            put(folder, f"{path}/{name}")


MACRO = '''
def tf_{name}(name, srcs = [], hdrs = [], deps = [], copts = [], linkopts = [], kernel = None, **kwargs):
    """A macro of the tree."""
    cc_library(
        name = name + "_lib",
        srcs = srcs + if_cuda(["gpu.cc"]),
        hdrs = hdrs,
        copts = tf_copts() + copts + select({{
            "//tensorflow:windows": ["/utf-8"],
            "//conditions:default": ["-Wno-sign-compare"],
        }}),
        deps = deps + if_mkl(["@mkl//:lib"]) + [clean_dep("//tensorflow/core:p0")],
        **kwargs
    )
    native.cc_binary(
        name = name,
        linkopts = linkopts + lrt_if_needed(),
        deps = [":" + name + "_lib"],
        linkshared = 1,
    )
    for kind in ["static", "shared", "gpu"]:
        native.filegroup(
            name = name + "_" + kind,
            srcs = [":" + name],
            tags = [kind, "manual"],
        )
'''
HEAD = '''load("@local_config_cuda//cuda:build_defs.bzl", "if_cuda", "cuda_default_copts")
load("@rules_cc//cc:defs.bzl", "cc_library")
load("//third_party/mkl:build_defs.bzl", "if_mkl")

VERSION = "2.14"
_SETTINGS = {"a": struct(b = 1)}

def clean_dep(target):
    return str(Label(target))

def tf_copts(allow_exceptions = False):
    return select({
        clean_dep("//tensorflow:windows"): ["/DPLATFORM"],
        "//conditions:default": ["-DEIGEN"],
    }) + if_cuda(["-DCUDA=1"]) + cuda_default_copts()

def lrt_if_needed():
    return select({"//tensorflow:linux": ["-lrt"], "//conditions:default": []})

def _impl(ctx):
    return struct(files = depset([x for x in ctx.files.srcs]))

tf_custom = rule(implementation = _impl, attrs = {"srcs": attr.label_list(), "mode": attr.string()})

def tf_cc_tests(name, srcs, deps = [], size = "small", tags = [], **kwargs):
    for src in srcs:
        native.cc_test(
            name = src.replace(".cc", "").replace("/", "_"),
            srcs = [src],
            deps = deps,
            size = size,
            tags = tags,
            args = if_cuda(["--gpu"]),
            env = {"A": "B"},
        )
'''


def tensorflow(folder, share=1.0):
    """990 packages, 30,000 files and 46,000 targets, at a share of 1."""
    rng, macros = random.Random(2), [f"m{n}" for n in range(60)]
    put(folder, "WORKSPACE", 'workspace(name = "org_tensorflow")\n')
    put(folder, "third_party/mkl/BUILD", "")
    put(folder, "third_party/mkl/build_defs.bzl", 'def if_mkl(if_true, if_false = []):\n    return select({"//third_party/mkl:on": if_true, "//conditions:default": if_false})\n')
    put(folder, "tensorflow/tensorflow.bzl", HEAD + "".join(MACRO.format(name=name) for name in macros))
    put(folder, "tensorflow/BUILD", 'config_setting(name = "windows", values = {"cpu": "x64_windows"})\nconfig_setting(name = "linux", values = {"cpu": "k8"})\n')
    count = int(985 * share)
    for at in range(count):
        path = "tensorflow/core" if not at else f"tensorflow/{'core compiler lite python'.split()[at % 4]}/d{at % 37}/p{at}"
        loads = rng.sample(macros, 4)
        text = f'load("//tensorflow:tensorflow.bzl", "tf_cc_tests", "tf_custom", {", ".join(f"{chr(34)}tf_{it}{chr(34)}" for it in loads)})\n'
        text += 'load("@org_other//tools:defs.bzl", "other_test", "VALUES")\n\npackage(default_visibility = ["//visibility:public"])\n\nlicenses(["notice"])\n'
        for n in range(8):
            other = rng.randrange(count)
            other = f"//tensorflow/{'core compiler lite python'.split()[other % 4]}/d{other % 37}/p{other}:p0" if other else "//tensorflow/core:p0"
            text += f'\ntf_{loads[n % 4]}(\n    name = "p{n}",\n    srcs = {listed([f"p{n}_{i}.cc" for i in range(3)])},\n    hdrs = glob(["*.h"]),\n    deps = [\n        "{other}",\n        "@com_google_absl//absl/strings",\n'
            text += f'        ":p{max(0, n - 1)}_lib",\n        "//tensorflow/missing{at % 7}:x{n}",\n' if n == 3 else ""
            text += "    ] + if_static,\n)\n".replace(" + if_static", "") if n % 2 else '    ] + select({\n        "//tensorflow:windows": [],\n        "//conditions:default": ["@eigen//:lib"],\n    }),\n)\n'
        text += f'\ntf_cc_tests(\n    name = "tests",\n    srcs = {listed([f"t{i}_test.cc" for i in range(6)])},\n    deps = [":p0_lib"],\n)\n\ntf_custom(name = "custom", srcs = ["custom.txt"], mode = "x")\n'
        text += '\nother_test(name = "other", srcs = ["other.py"], values = VALUES)\n\nfilegroup(name = "files", srcs = glob(["**"], exclude = ["**/*.cc"]))\n'
        put(folder, f"{path}/BUILD", text)
        for name in [*(f"p{n}_{i}.cc" for n in range(8) for i in range(2)), *(f"t{i}_test.cc" for i in range(6)), *(f"h{i}.h" for i in range(4)), "custom.txt", "other.py", "gpu.cc"]:
            put(folder, f"{path}/{name}")


SHAPES = {"kubernetes": kubernetes, "tensorflow": tensorflow}
