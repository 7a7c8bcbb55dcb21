"""Tries bzlq hints: the example of every number that bq prints (docs/FAULTS.md) has to get the lines of hint_rows.py; and its words, and files that
take long to evaluate."""
import re
import signal
from unittest import mock

import kit
from bench import ROOT
from bzlq.hints import queries, scan
from bzlq.hints.report import hinted
from bzlq.hints.sources import Sources
from hint_rows import ROWS
from mistakes import MISTAKES, WORKSPACE


def rows(bench):
    """The example of every number."""
    faults = kit.module_of(f"{ROOT}/tests/scripts/faults")
    table = faults.tables()
    numbers = [entry for name, *_ in table.TABLES for entry in table.entries(name)]
    bench.compare("the numbers of tests/scripts/hint_rows.py", list(ROWS), [number for number, *_ in numbers])
    for number, _, text in numbers:
        bundle, command, _ = faults.example(text)
        path = f"{bench.room}/bundle"
        with open(path, "w", encoding="utf-8") as file:
            file.write(bundle)
        before, bar, last = command.rpartition("|")
        if bar and "bq" in last and "ulimit" not in last:
            bench.run(f"{before} > bundle")
        errors = bench.run(command, given=bundle.encode())[1]
        query = re.search(r"bq (?:--dir \S+ )?('[^']*'|\S+)", command)[1].strip("'")
        written, _ = hinted(errors.splitlines(), Sources.of_bundle(path), query)
        bench.compare(number, "\n".join(written).split("\n"), ROWS.get(number))


def interface(bench):
    """The words of bzlq hints."""
    fault = '//app:BUILD:3: F71 NoAttribute\n'
    bench.lay_out("w", {**WORKSPACE, **MISTAKES["a wrong attribute in a macro"][0]})
    both = f"//app:BUILD:3: F79 DanglingLabel //log:log\n//log:BUILD:3: F71 NoAttribute\n"
    first = "w/log/BUILD:3:1: F71 NoAttribute: no attribute 'sources' in rule 'filegroup' (did you mean 'srcs'?), at w/tools/defs.bzl:4:9 in library\n"
    then = "w/app/BUILD:6:13: F79 DanglingLabel: no target //log:log: the package has a fault of its own (w/log/BUILD:3)\n"
    bench.compare("causes first", bench.run("bzlq hints w", given=both.encode()), (first + "and 1 that follows from these\n", "", 0))
    bench.compare("--all", bench.run("bzlq hints w --all", given=both.encode()), (first + then, "", 0))
    data = ('{"path": "w/log/BUILD", "line": 3, "column": 1, "number": "F71", "name": "NoAttribute", "reason": "no attribute \'sources\' in rule '
            '\'filegroup\' (did you mean \'srcs\'?)", "label": "//log:BUILD", "inner": [{"path": "w/tools/defs.bzl", "line": 4, "column": 9, '
            '"function": "library"}], "follows": false}\n')
    bench.compare("--json", bench.run("bzlq hints w --json", given=both.encode().splitlines(True)[1]), (data, "", 0))
    odd = b"a line that a file prints\n//none:BUILD:1: F71 NoAttribute\n\xff\xfe\n\nbq:\n//app:BUILD:99: F71 NoAttribute\n"
    bench.compare("lines that it doesn't know", bench.run("bzlq hints w", given=odd)[0].encode(errors="surrogateescape"),
                  b"w/app/BUILD:99:1: F71 NoAttribute\n" + odd.rpartition(b"//app")[0])
    bench.compare("no tree", bench.run("bzlq hints", given=fault.encode()), (fault, "", 0))
    bench.compare("a tree that isn't there", bench.run("bzlq hints none", given=fault.encode()), ("", "hints: none: No such file or directory\n", 2))
    bench.compare("a file that can't be read", bench.run("bzlq bundle /proc/self/mem"), ("", "bundle: /proc/self/mem: Input/output error\n", 2))
    bench.lay_out("o", {"app/BUILD": 'filegroup(nam = "x")\n'})
    bench.compare("an overlay", bench.run("bzlq hints w --overlay o", given=b"//app:BUILD:1: F71 NoAttribute\n"),
                  ("w/app/BUILD:1:11: F71 NoAttribute: no attribute 'nam' in rule 'filegroup' (did you mean 'name'?)\n", "", 0))


# queries that are none, what is pointed at, and what is said of it
QUERIES = (
    ("-//x", 0, "an operand is missing before '-'"), ("//a + + //b", 6, "an operand is missing before '+'"), ("deps(^ //a)", 5, "an operand is missing before '^'"),
    ("rdeps(//..., union //a)", 13, "an operand is missing before 'union'"), ("let x = - //a in $x", 8, "an operand is missing before '-'"),
    ("let x = //a in + $x", 15, "an operand is missing before '+'"), ("//a -", 5, "the query ends too early"), ("//a - )", 6, "this parenthesis closes none"),
)


def syntax(bench):
    """Where a query ends to be one."""
    for query, at, what in QUERIES:
        bench.compare(query, queries.syntax(query), queries.pointed(query, at, what))


HOSTILE = {
    "a text that grows": 'x = "a" * 1000000\ny = [x + x for n in range(100)]\n',
    "a long loop": "x = [n for n in range(1000000000)]\n",
    "replacements that grow": 'x = ("a" * 100000).replace("a", "b" * 1000000)\n',
    "a value that is shared": "x = [0]\n" + "x = [x, x]\n" * 60 + "y = [0]\n" + "y = [y, y]\n" * 60 + "z = x == y\n",
    "keys that are shared": "x = (0,)\n" + "x = (x, x)\n" * 60 + "y = {x: 1}\n",
    "a format that grows": 'x = ("%s" * 100000) % tuple(["a" * 1000000] * 100000)\n',
    "very many brackets": "x = " + "[" * 30000 + "\n",
    "very many quotes": "x = " + '"""' * 30001 + "\n",
}


def hostile(bench):
    """Files that take long to evaluate: each fault has its line in seconds, and a line says so where the time was too short for reasons."""
    for what, text in HOSTILE.items():
        bench.lay_out("h", {"WORKSPACE": "", "BUILD": text + "1 // 0\n"})
        output, *ended = bench.run("ulimit -v 2000000 -t 60; bzlq hints h", given=b"//:BUILD:1: F42 DivZero\n//:BUILD:1: F10 Syntax\n//:BUILD:1: F7 Bracket\n")
        lines = [it for it in output.splitlines() if not re.fullmatch(r"\d of these have no reason: looking for it is ended after 2 s", it)]
        bench.compare(what, ([it[:len("h/BUILD:1:")] for it in lines], ended), (["h/BUILD:1:"] * 3, ["", 0]))


class Clock:
    """The time of the process on a machine where each look at it takes a thousandth of a second."""

    def __init__(self):
        self.now = 0.0

    def __call__(self):
        self.now += 0.001
        return self.now


def slow(bench):
    """However slow the machine, a file that takes long leaves time to the others."""
    for what, text in HOSTILE.items():
        bench.lay_out("h", {"WORKSPACE": "", "a/BUILD": text + "1 // 0\n", "b/BUILD": "1 // 0\n"})
        with mock.patch("time.process_time", Clock()):
            written, _ = hinted(["//a:BUILD:1: F42 DivZero", "//b:BUILD:1: F42 DivZero"], Sources.of_directories([f"{bench.room}/h"]))
        bench.compare(f"beside {what}", (written[1:], len(written)), ([f"{bench.room}/h/b/BUILD:1:1: F42 DivZero: 1 // 0"], 2))
    bench.lay_out("h", {"WORKSPACE": "", "a/BUILD": "filegroup(name = \"c\", srcs = [\"//x\", \"//y\"])\n", **{f"{it}/BUILD": HOSTILE["a long loop"] + f'filegroup(name = "{it}s")\n' for it in "xy"}})
    with mock.patch("time.process_time", Clock()):
        written, _ = hinted([f"//a:BUILD:1: F79 DanglingLabel //{it}:{it}" for it in "xy"], Sources.of_directories([f"{bench.room}/h"]))
    said = [f"{bench.room}/h/a/BUILD:1:{at}: F79 DanglingLabel: package '{it}' has no target '{it}' (did you mean '{it}s'?)" for it, at in (("x", 31), ("y", 38))]
    bench.compare("labels of packages that take long", written, said)


def ranked(bench):
    """Of many lines the causes are counted."""
    defs = "def m(name, n):\n    native.filegroup(name = name, srcs = n)\n"
    texts = {"one": 'load("//t:d.bzl", "m")\nm(name = "a", n = 3)\n', "two": 'load("//t:e.bzl", "m")\n', "three": 'filegroup(name = "x", srcs = y)\n'}
    for count, wanted in ((15, ["15 of these by F73 at t/d.bzl:2:35 in m", "5 of these by F31: there is no file t/e.bzl (did you mean 'd.bzl'?)"]), (14, [])):
        folders = {f"{it}{n}/BUILD": text for it, text in texts.items() for n in range({"one": count, "two": 5, "three": 1}[it])}
        bench.lay_out("ranked", {"WORKSPACE": "", "t/BUILD": "", "t/d.bzl": defs, **folders})
        found = bench.run("bzlq //...", "ranked")[1].splitlines()
        bench.compare(f"{count + 6} lines", [it for it in found if "of these" in it], wanted)


LONG = {
    "brackets": ("F7 F10 F11", "x = " + "[" * 40000 + "\n"),
    "calls": ("F10", "x = f" + "()" * 30000 + "\n"),
    "commas": ("F10", "x = [" + "1, " * 20000 + "]\n"),
    "escapes": ("F5", 'x = "' + "\\n" * 500000 + '"\n'),
    "lines": ("F2", "if x:\n  y\n" * 40000),
}


def linear(bench):
    """What looks at the tokens of a long file takes a part of a second, and no time that grows with the square of its length."""
    def end(number, _):
        raise TimeoutError
    before = signal.signal(signal.SIGVTALRM, end)
    for what, (numbers, text) in LONG.items():
        for number in numbers.split():
            signal.setitimer(signal.ITIMER_VIRTUAL, 2)
            is_over = False
            try:
                scan.SCANS[number](text, 1)
            except TimeoutError:
                is_over = True
            signal.setitimer(signal.ITIMER_VIRTUAL, 0)
            bench.compare(f"{number} over very many {what}: 2 s are over", is_over, False)
    signal.signal(signal.SIGVTALRM, before)


def check(bench):
    """Tries all of it."""
    for part in (rows, interface, syntax, hostile, slow, ranked, linear):
        part(bench)
