"""Tries files of any bytes: whatever is in a BUILD or .bzl file, the rest of the workspace is answered, in time that grows with its length alone; and
what isn't read of a file is told."""
import gc
import os
import re
import signal
import tempfile
import time

from bzlq.overlay import stubs

A = 'filegroup(name = "a")\n'
# what a reader in Python has its limits with, or takes otherwise than bq does
TEXTS = {
    "a sum": 'x = "1" + "+1" * 300\ny = ' + "1" + "+1" * 300, "a longer sum": "x = 1" + "+1" * 5000, "nots": "x = " + "not " * 10000 + "1", "a NUL": 'x = "\\0"',
    "half a character": 'x = "\\ud800"', "minus": "x = " + "-" * 500 + "1", "methods": "x = a" + ".strip()" * 500, "slices": "x = [a" + "[:]" * 500 + "]",
    "conditions": "x = " + "1 if 1 else " * 500 + "1", "elifs": "def f():\n  if 1:\n    pass\n" + "  elif 1:\n    pass\n" * 500, "brackets": "x = " + "[" * 300 + "]" * 300,
    "a number as a symbol": 'load("@r//a:b.bzl", c = 1)', "bytes as a symbol": 'load("@r//a:b.bzl", c = b"a")', "a symbol that is no name": 'load("@r//a:b.bzl", x = "a b")\nx(name = "t")',
    "a symbol with a line break": 'load("@r//a:b.bzl", x = "a\\nb")\nfilegroup(name = "t", srcs = x)', "a symbol that isn't ASCII": 'load("@r//a:b.bzl", "a\u00e4")\na\u00e4(name = "t")',
    "an attribute that isn't ASCII": 'load("@r//a:b.bzl", "f")\nf(name = "t", a\u00e4 = 1)', "half a character in a symbol": 'load("@r//a:b.bzl", x = "a\\ud800")\nfilegroup(name = "t", srcs = x)',
    "a label with a line break": 'load("@r//a\\nb:c.bzl", "x")\nfilegroup(name = "t", srcs = x)', "half a character in a label": 'load("@r//\\ud800:c.bzl", "x")\nfilegroup(name = "t", srcs = x)',
    "a repository above": 'filegroup(name = "t", srcs = ["@..//a:x", "@.//a:y", "@...//a:z"])\nload("@..//a:b.bzl", "c")', "other constants": 'load("@r//a:b.bzl", "f")\nf(name = b"t", a = 1j, c = ..., d = 1.5)',
    "predeclared names": "".join(f'load("@r//a:b.bzl", x{at} = "{name}")\nx{at}(name = "t{at}")\n' for at, name in enumerate(("select", "len", "native", "rule", "attr", "glob", "None", "load"))),
    "keywords as attributes": 'load("@r//a:b.bzl", "f")\nf(name = "t", **{"class": 1, "if": 2, "a b": 3, "": 4})', "a return in a line": "x = 1 # a\rload(1)\ny = select(\r{})\r",
    "a BOM": "\ufeffx = 1", "a NUL byte": "x = 1 # \0\n\0", "no bytes": "", "one": "\xff", "an f-string": 'x = f"{a}{b!r:>{c}}" + f"\\q"', "texts side by side": "x = 'a\\q' \"b\\q\"",
    "a name for many": 'load("@r//a:b.bzl", "f")\na = b = c = f(name = "t")\na, (b, [c]) = 1', "a walrus": "x = [y := 1, (z := f(name = 'a'))]", "a star": "x = [*a, *b]\nf(*a, **b, *c)",
    "a loop": "for x in y:\n  while 1:\n    with a as b:\n      try: pass\n      except: pass", "a class": "class A(B):\n  def f(self):\n    async def g(): await x\n    yield 1",
    "a match": "match x:\n  case 1: pass", "annotations": "x: int = 1\ndef f(a: int, /, b: str = 1, *c, d, **e) -> None: global x", "a number of 5,000 digits": "x = " + "1" * 5000,
    "a genrule of texts": 'genrule(name = 1, outs = "a", srcs = "a")\ngenrule(**x)', "a glob of numbers": 'filegroup(name = "t", srcs = glob(1, exclude = 2))\nglob()\nglob(exclude = [1, x, None])',
    "a rule without a name": "x = rule(1, attrs = [1])\ny = rule(attrs = {1: 2, 'a': 3, **b})\nz = macro(implementation = 1, attrs = 2)\nw = macro(attrs = {1: attr.label()})",
    "selects of all kinds": "x = select()\ny = select(1)\nz = select({**a})\nfilegroup(name = select({'a': 'b'}), srcs = select({x: y for x in z}), tags = select({1: 2}) + select(3))",
}
# what comes in bytes that are no text
BYTES = {"bytes that are no UTF-8": b'x = "\xe4" # \xff\xfe\nfilegroup(name = "t", srcs = glob(["a"]) + select({"//conditions:default": []}))\n', "all bytes": bytes(range(256)) * 3}


def files():
    """A workspace with each of these texts as a BUILD file, and as a .bzl file that one loads."""
    found = {"WORKSPACE": "", "a/BUILD": A}
    for at, text in enumerate([*TEXTS.values(), *BYTES.values()]):
        found |= {f"b{at}/BUILD": text, f"d{at}/d.bzl": text, f"d{at}/BUILD": 'load(":d.bzl", "x")\nx(name = "t")\n'}
    return found


def texts(bench):
    """None of these texts stops the others."""
    bench.lay_out("ws", files())
    found = bench.run("bzlq //a", "ws")
    bench.compare("odd texts", (found[0], "raceback" in found[1] or "an error of" in found[1], found[2]), ("//a:a\n", False, 3))
    found = bench.run("bzlq stubs ws overlay")
    bench.compare("stubs of odd texts", ("raceback" in found[1] or "an error of" in found[1], found[2]), (False, 0))
    paths = " ".join(f"{it}/BUILD" for it in sorted(os.listdir(f"{bench.room}/ws")) if it[0] == "b")
    found = bench.run(f"bzlq lint {paths}", "ws")
    bench.compare("lint of odd texts", ("raceback" in found[1] or "an error of" in found[1], found[2]), (False, 1))
    for words in ("--facts", "users filegroup", "visible", "unused", "graph //...", "cycles"):
        found = bench.run(f"bzlq {words}", "ws")
        bench.compare(f"bzlq {words} over odd texts", ("raceback" in found[1] or "an error of" in found[1], found[2] in (1, 3)), (False, True))
    bench.run("git init -q; git add -A; git -c user.name=x -c user.email=x commit -qm x; for it in b*/BUILD; do echo >> $it; done", "ws")
    found = bench.run("bzlq affected HEAD", "ws")
    bench.compare("affected over odd texts", ("raceback" in found[1] or "an error of" in found[1], found[2]), (False, 3))


def told(bench):
    """What isn't read is told where bq has no fault to tell of it; what bq takes in comments and texts is read."""
    deep = "x = 1" + "+1" * 30000 + "\n"
    bench.lay_out("ws", {"WORKSPACE": "", "a/BUILD": A, "b/BUILD": deep, "c/BUILD": 'load(":d.bzl", "x")\n', "c/d.bzl": deep, "d/BUILD": "def f(:\n"})
    found = bench.run("bzlq //a", "ws")
    bench.compare("a sum of 30,000", (found[0], "targets may be missing: b/BUILD is taken as it is, since it isn't read here: it nests too deep" in found[1], found[2]), ("//a:a\n", True, 3))
    lines = [f"stubs: WARNING: {it} is taken as it is, since it isn't read here: it nests too deep to be read here" for it in ("b/BUILD", "c/d.bzl")]
    said = bench.run("bzlq stubs ws overlay")[1].splitlines()
    bench.compare("what stubs says", (said[:2], said[2].startswith("stubs: WARNING: d/BUILD is taken as it is"), len(said)), (lines, True, 3))
    for path in ("a/BUILD", "b/BUILD"):
        with open(f"{bench.room}/ws/{path}", "a", encoding="utf-8") as file:
            file.write("# x\n")
        bench.compare(f"after an edit of {path}", [bench.run("bzlq //a", "ws")[0::2] for _ in range(2)], [("//a:a\n", 3)] * 2)
    srcs = "".join(f' + ["{at}.c"] + select({{"//conditions:default": ["s{at}.c"]}})' for at in range(1000))
    bench.lay_out("ws", {"WORKSPACE": "", "a/BUILD": f'filegroup(name = "a", srcs = []{srcs})\n', "b/BUILD": BYTES["bytes that are no UTF-8"], "b/a": "", "c/BUILD": "x = 1 # \0 a\rload(1)\n" + A})
    found = bench.run("bzlq 'deps(//...)'", "ws")
    bench.compare("a sum of 2,000 lists, and bytes of comments", (found[0].count("\n"), found[1:]), (2004, ("bzlq: reading the workspace\n", 0)))


def large(bench):
    """No more is read of a file than bq looks at, and nothing that isn't a file; names of any bytes are told."""
    bench.lay_out("ws", {"WORKSPACE": "", "a/BUILD": A, "b/BUILD": "x = 1\n", "c/d.bzl": "x = 1\n", "c/BUILD": 'load(":d.bzl", "x")\n', "d/BUILD": A})
    os.truncate(f"{bench.room}/ws/b/BUILD", 3 << 30)
    os.truncate(f"{bench.room}/ws/c/d.bzl", 3 << 30)
    os.mkfifo(f"{bench.room}/ws/d/BUILD.bazel")
    found = bench.run("ulimit -v 2000000; bzlq //...", "ws")
    bench.compare("files of 3 GB, and a pipe", (found[0], [it.partition(": ")[2][:14] for it in found[1].splitlines()[1:]], found[2]), ("//a:a\n//d:a\n", ["F8 FileTooLong"] * 2 + [""], 3))
    bench.lay_out("ws", {"WORKSPACE": "", "a/BUILD": 'load("@r//:x.bzl", "t_test")\nt_test(name = "a", srcs = glob(["*"]))\n', "a/a\x1b\n\t\x7f\u2028b": "", 'a/x"\\': ""})
    found = bench.run("bzlq //a", "ws")
    bench.compare("names of control bytes", (found[0], found[2], "\x1b" in found[1]), ("//a:a\n", 3, False))


def one_file(bench):
    """One file can't make the overlay one that bq refuses: a suite of many tests, many labels that lead to nothing, an attribute called null."""
    tests = 'filegroup(name = "b")\n[sh_test(name = "%d" % i + "_" * 50 + "test") for i in range(20000)]\ntest_suite(name = "all")\n'
    labels = 'load("@r//:x.bzl", "m")\nm(name = "x")\n[filegroup(name = "f%d" % i, srcs = ["x-%d" % i + "_" * 50, "@r//p:t%d" % i + "_" * 50]) for i in range(20000)]\n'
    others = 'load("@r//:x.bzl", "m", "n")\nm(name = "o", nullable = "//a:b", srcs = ["@r//p"])\nsh_test(name = "null_test")\ntest_suite(name = "s")\n'
    attributes = 'load("@r//:x.bzl", "n")\nn(name = "n", ' + ", ".join(f'a{at} = ":x{at}"' for at in range(40000)) + ")\n"
    bench.lay_out("ws", {"WORKSPACE": "", "a/BUILD": tests, "b/BUILD": labels, "c/BUILD": others, "d/BUILD": attributes})
    found = bench.run("bzlq 'deps(//c:all)'", "ws")
    bench.compare("what one file can do", (found[0], found[2]), ("//a:b\n//c:null_test\n//c:o\n//c:s\n@r//p:p\n", 3))


def shapes():
    """Files of n statements, or of one with n parts, which are to take time in proportion: name, text, and whether it is a .bzl file."""
    def each(text, before="", after="\n"):
        return lambda n: before + "".join(text.replace("#", str(at)) for at in range(n)) + after

    absent = "load('@r//a:b.bzl', 'foo', 'bar')\n"
    builds = {
        "loops": each("[foo(name = 'x#') for it in bar]\n", absent), "values": each("y# = bar + ['a']\nfoo(name = 'x#', srcs = y#)\n", absent),
        "statements": each("x# = 1\n"), "sums": each(" + ['#']", "filegroup(name = 'x', srcs = []", ")\n"), "selects": each(" + select({':a#': ['b']})", "filegroup(name = 'x', srcs = []", ")\n"),
        "calls": each("foo(name = 'x#', a = 1)\n", "load('@r//a:b.bzl', 'foo')\n"), "rules": each("load('@r#//a:b.bzl', 'c#')\nc#(name = 'x#')\n"),
        "symbols": lambda n: each(", 'c#'", "load('@r//a:b.bzl'", ")\n")(n) + each("c#(name = 'x#')\n")(n), "late loads": lambda n: each("c#(name = 'x#')\n")(n) + each("load('@r//a:b.bzl', 'c#')\n")(n),
        "labels": each("filegroup(name = 'x#', srcs = ['@r//p#:t#'])\n"), "further targets": each("m(name = 'x#')\nfilegroup(name = 'y#', srcs = ['x#-and'])\n", "load('@r//a:b.bzl', 'm')\n"),
        "members": each("foo.bar#(name = 'x#')\n", "load('@r//a:b.bzl', 'foo')\n"), "attributes": each(", a# = ':x'", "load('@r//a:b.bzl', 'foo')\nfoo(name = 'x'", ")\n"),
        "misspelt": each("cc_library(name = 'x#', srcss# = 1)\n"), "one line": each("; x# = 1", "x = 1"), "escapes": each("x# = '\\q'\n"), "tests": each("cc_test(name = 'x#')\n"),
        "suites": each("test_suite(name = 'x#')\n"), "globs": each("filegroup(name = 'x#', srcs = glob(['a'], exclude = ['//x']))\n"),
    }
    files = {
        "conditions": each("  if bar:\n    native.filegroup(name = 'x#')\n", absent + "def x(name):\n"), "elifs": each("  elif bar:\n    foo(name = 'x#')\n", absent + "def x(name):\n  if bar:\n    pass\n"),
        "a chain of values": lambda n: absent + "x0 = bar + []\n" + "".join(f"x{at + 1} = x{at} + []\n" for at in range(n)) + f"def x(name):\n  [foo(name = it) for it in x{n}]\n",
        "functions": each("def f#():\n  native.filegroup(name = 'x')\n"), "left out": each("x# = struct(a = 1)\n"), "members": each("x# = struct(a = 1)\ny# = x#.a\n"),
        "names": each("x# = y#\ny# = x#\n", "x = 1\n"), "a chain of names": lambda n: "x0 = 1\n" + "".join(f"x{at + 1} = x{at}\n" for at in range(n)) + f"x = x{n}\n",
        "a chain back": lambda n: "x = x0.a\n" + "".join(f"x{at} = x{at + 1}.a\n" for at in range(n)) + f"x{n} = struct()\n", "a circle": lambda n: "x = x0\n" + "".join(f"x{at} = x{(at + 1) % n}\n" for at in range(n)),
        "macros": lambda n: "".join(f"def f{at}(**k):\n  f{at + 1}(**k)\n" for at in range(n)) + f"def f{n}(**k):\n  native.filegroup(**k)\nx = f0\n",
        "one function": each("  native.filegroup(name = 'x#', **k)\n", "def x(**k):\n"), "assignments": each("  x# = 1\n", "def x():\n"), "rules": each("x# = rule(implementation = f, attrs = {'a': attr.label()})\n"),
        "attributes": each("'a#': attr.label(), ", "x = rule(implementation = f, attrs = {", "})\n"), "keys": each("  k['a#'] = 1\n", "def x(**k):\n", "  native.filegroup(**k)\n"), "lambdas": each("x# = lambda: 1\n"),
    }
    yield from ((name, text, False) for name, text in builds.items())
    yield from ((name, text, True) for name, text in files.items())


# how many parts a shape has, and how often it is timed at most
PARTS, TRIES = 2000, 3


def seconds(text, is_bzl):
    """How long an overlay takes for a file, in seconds of a processor; infinite where that is far too much."""
    def end(*_):
        raise TimeoutError

    with tempfile.TemporaryDirectory(prefix="shape-") as room:
        os.mkdir(f"{room}/b")
        loads = 'load(":d.bzl", "x")\nx(name = "b")\n'
        for path, part in (("WORKSPACE", ""), *((("b/d.bzl", text), ("b/BUILD", loads)) if is_bzl else (("b/BUILD", text),))):
            with open(f"{room}/{path}", "w", encoding="utf-8") as file:
                file.write(part)
        before = signal.signal(signal.SIGVTALRM, end)
        signal.setitimer(signal.ITIMER_VIRTUAL, 60)
        gc.disable()
        start = time.process_time()
        try:
            facts = stubs.Facts(stubs.Workspace(room))
            overlay = stubs.Overlay(facts, b"".join(b"x F79 DanglingLabel //b:%s\n" % it.encode() for it in re.findall(r"x\d+-and", text)))
            list(stubs.told(room, "", stubs.silences(facts), facts.unread(), facts.further_left, False))
            return time.process_time() - start if overlay.files else 0.0
        except TimeoutError:
            return float("inf")
        finally:
            gc.enable()
            signal.setitimer(signal.ITIMER_VIRTUAL, 0)
            signal.signal(signal.SIGVTALRM, before)


def growth(bench):
    """Twice as many parts take about twice as long."""
    for name, text, is_bzl in shapes():
        one = two = float("inf")
        for _ in range(TRIES):  # (a processor that others use too takes longer, and not always as much)
            two = min(two, seconds(text(2 * PARTS), is_bzl))
            if two < 0.1:
                break
            one = min(one, seconds(text(PARTS), is_bzl))
            if two < 3 * one + 0.1:
                break
        bench.compare(f"{name} in a {'.bzl' if is_bzl else 'BUILD'} file: {one:.2f} and {two:.2f} s", two < 0.1 or two < 3 * one + 0.1, True)


def check(bench):
    """Tries all of it."""
    for part in (texts, told, large, one_file, growth):
        part(bench)
