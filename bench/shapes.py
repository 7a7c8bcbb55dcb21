"""The workspaces that bench/run, bench/steps and bench/peers measure, each as the paths of its files with their texts."""
import os

MACROS = """def {name}(name, srcs):
    for i in range(10):
        native.filegroup(name = name + "_{name}_" + str(i), srcs = srcs + [":" + name + ".txt"])
"""
DECLARED = """def _impl(ctx):
    pass

library = rule(
    implementation = _impl,
    attrs = {"srcs": attr.label_list(), "data": attr.label_list(), "output_group": attr.string()},
)
"""
LOOP = """def turns(n):
    total = 0
    for i in range(n):
        total += i
    return total
"""
# a function of so many turns, for some 1,000,000 steps
LOOPS = {
    "arithmetic": (
        1_000,
        """def work(n):
    total = 0
    for i in range(n):
        for j in range(100):
            total = (total + i * j) % 1000003
    return total
""",
    ),
    "strings": (
        30_000,
        """def work(n):
    total = 0
    for i in range(n):
        text = "//base/" + str(i) + ":name"
        total += len(text.replace("base", "core").split(":"))
    return total
""",
    ),
    "dicts": (
        60_000,
        """def work(n):
    counts = {}
    for i in range(n):
        key = i * 7 % 1000
        counts[key] = counts.get(key, 0) + 1
    return len(counts)
""",
    ),
    "calls": (
        100_000,
        """def add(a, b = 1):
    return a + b

def work(n):
    total = 0
    for i in range(n):
        total = add(total, b = i)
    return total
""",
    ),
    "comprehensions": (
        1_500,
        """def work(n):
    total = 0
    for i in range(n):
        total += len([j * i for j in range(100) if j % 3])
    return total
""",
    ),
}
# how many files before it one of a fan loads, and how many files such a group has
FAN = 16
GROUP = 900


def macros(packages, calls=10):
    """Packages whose targets macros declare."""
    for name in ("first", "second"):
        yield f"rules/{name}.bzl", MACROS.format(name=name).replace("range(10)", f"range({calls})")
    yield "rules/BUILD", ""
    for p in range(packages):
        leaf = f'"//tree/package_{p + 1}:b_second_0"' if p + 1 < packages else '"leaf.txt"'
        yield f"tree/package_{p}/BUILD", (
            'load("//rules:first.bzl", "first")\nload("//rules:second.bzl", "second")\n'
            f'first(name = "a", srcs = ["one.txt"])\nsecond(name = "b", srcs = [{leaf}])\n'
        )


def declared(packages):
    """The same with a rule of a .bzl file."""
    yield "rules/library.bzl", DECLARED
    for name, text in macros(packages):
        if name.startswith("rules/") and text:
            text = 'load(":library.bzl", "library")\n' + text.replace("native.filegroup", "library")
        yield name, text


def text(packages):
    """80 targets a package: 20 rules and the 60 files that they name."""
    for p in range(packages):
        yield f"src/module_{p // 100}/package_{p}/BUILD", "".join(
            f'filegroup(\n    name = "library_{t}",\n    srcs = [\n'
            + "".join(f'        "source_{t}_{part}.cc",\n' for part in ("first", "second", "third"))
            + f'    ],\n    visibility = ["//visibility:public"],\n)\n\n'
            for t in range(20)
        )


def packages(modules):
    """As many modules, most of them packages."""
    return macros(modules - 3)


def chain(modules):
    """As many files, each of which loads the one before."""
    yield "m0.bzl", "values = [0]\ndef last():\n    return values[-1]\n"
    for m in range(1, modules):
        loads = f'load(":m{m - 1}.bzl", before = "values", last_before = "last")\n'
        yield f"m{m}.bzl", f"{loads}values = before[-8:] + [last_before() + 1]\ndef last():\n    return values[-1]\n"
    yield "BUILD", f'load(":m{modules - 1}.bzl", "last")\nfilegroup(name = "t" + str(last()))\n'


def fan(modules):
    """As many files, each of which loads several."""
    for m in range(modules):
        first = m // GROUP * GROUP
        below = range(max(first, m - FAN), m)
        loads = "".join(f'load(":m{b}.bzl", v{b} = "value")\n' for b in below)
        yield f"m{m}.bzl", f"{loads}value = max([{m}{''.join(f', v{b}' for b in below)}])\n"
    last = [m for m in range(modules) if m % GROUP == GROUP - 1 or m == modules - 1]
    loads = "".join(f'load(":m{m}.bzl", v{m} = "value")\n' for m in last)
    yield "BUILD", f'{loads}filegroup(name = "t" + str(max([{", ".join(f"v{m}" for m in last)}])))\n'


def steps(files=900, packages=1000, turns=1000):
    """Files and packages that take many steps."""
    yield "chain/BUILD", ""
    yield "chain/m0.bzl", f"{LOOP}value = turns({2 * turns})\n"
    for m in range(1, files):
        yield f"chain/m{m}.bzl", f'load("//chain:m{m - 1}.bzl", before = "value")\n{LOOP}value = before + turns({2 * turns})\n'
    for p in range(packages):
        yield f"tree/package_{p}/BUILD", f'load("//chain:m{files - 1}.bzl", "value", "turns")\nfilegroup(name = "t" + str(turns({turns}) + value))\n'


def steps_whole(files=900, packages=1000, turns=1000):
    """`steps` as one program without loads, whose rule calls name their packages."""
    yield f"{LOOP}value_0 = turns({2 * turns})\n"
    for m in range(1, files):
        yield f"value_{m} = value_{m - 1} + turns({2 * turns})\n"
    for p in range(packages):
        yield f'filegroup(package = "tree/package_{p}", name = "t" + str(turns({turns}) + value_{files - 1}))\n'


def loop(name, times=1):
    """A package that runs a loop, by its name."""
    turns, work = LOOPS[name]
    yield "BUILD", f'load("//:work.bzl", "work")\nfilegroup(name = "t" + str(work({times * turns})))\n'
    yield "work.bzl", work


def file(turns=200000):
    """One file that takes many steps."""
    yield "BUILD", f'load("//:loop.bzl", "turns")\nfilegroup(name = "t" + str(turns({turns})))\n'
    yield "loop.bzl", LOOP


def wide():
    """Packages that each take some steps."""
    yield "rules/BUILD", ""
    yield "rules/loop.bzl", LOOP
    for p in range(4000):
        yield f"tree/package_{p}/BUILD", 'load("//rules:loop.bzl", "turns")\nfilegroup(name = "t", srcs = ["x" + str(turns(1000)) + ".txt"])\n'


def large(packages):
    """Packages of ten files each, whose targets a macro declares, each of which depends on the next package."""
    yield "rules/BUILD", ""
    yield "rules/first.bzl", MACROS.format(name="first")
    for p in range(packages):
        following = f', "//tree/area_{(p + 1) // 1000}/package_{p + 1}:a_first_0"' if p + 1 < packages else ""
        directory = f"tree/area_{p // 1000}/package_{p}"
        yield f"{directory}/BUILD", f'load("//rules:first.bzl", "first")\nfirst(name = "a", srcs = glob(["*.cc"]) + ["x"{following}])\n'
        for k in range(9):
            yield f"{directory}/source_{k}.cc", ""


def write_bundle(path, files):
    """Writes the bundle of files; gives its size."""
    with open(path, "w", encoding="ascii") as out:
        for name, text in files:
            out.write(f"=== {name}\n{text}")
    return os.path.getsize(path)
