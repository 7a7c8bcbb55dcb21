"""Tries the scripts over facts: bzlq why, graph, loads, users, cycles and unused, and `facts` of bzlq/bq.py."""
import random
import re
import shutil
import subprocess

from bzlq import bq
from bzlq.facts.graph import components, shortest, shortest_cycle

FILES = {
    "rules.schema": "rule lib\nattr srcs label_list\nattr deps label_list\nattr main label\nattr n int\nattr text string\n\nrule lib_test\nattr deps label_list\n"
                    "\nrule genrule\nattr srcs label_list\nattr outs output_list mandatory\nattr cmd string\n",
    "tools/BUILD": "",
    "tools/a.bzl": 'def both(name, deps = []):\n    native.lib(name = name, deps = deps)\n    native.lib_test(name = name + "_test", deps = [":" + name])\n',
    "tools/b.bzl": 'load(":a.bzl", made = "both")\n\ntwice = made\n\ndef outer(name):\n    twice(name = name, deps = ["//c:c"])\n',
    "a/BUILD": 'load("//tools:a.bzl", "both")\n\nboth("a", deps = ["//b:b", "a.c"])\n\n[both(n) for n in ["x", "y"]]\n',
    "a/a.c": "",
    "b/BUILD": '# a comment\nload("//tools:b.bzl", "outer", it = "outer")\n\nouter("b")\n\nit(\n    name = "b2",\n)\n',
    "c/BUILD": 'lib(name = "c", srcs = ["c.c", ":made.c"])\n\ngenrule(\n    name = "gen",\n    outs = ["made.c"],\n    srcs = ["c in.txt"],\n)\n'
               'lib(name = "old", main = "c.c")\n\npackage_group(name = "us", includes = ["//d:us"])\n',
    "d/BUILD": 'package_group(name = "us")\nlib(name = "d", deps = ["//d/e:e", ":f"])\nlib(name = "f", deps = ["//d/e:e"])\n',
    "d/e/BUILD": 'lib(name = "e", deps = ["//d:d"])\nlib(name = "one", main = ":two")\nlib(name = "two", deps = [":one"])\n',
}
WHY = ("w/a/BUILD:3: //a:a_test -> //a:a (deps)\nw/a/BUILD:3: //a:a -> //b:b (deps)\nw/b/BUILD:4: //b:b -> //c:c (deps)\n"
       "w/c/BUILD:1: //c:c -> //c:made.c (srcs)\nw/c/BUILD:3: //c:made.c -> //c:gen (made by)\nw/c/BUILD:3: //c:gen -> //c:c in.txt (srcs)\n")
CYCLES = ("3 targets depend on one another: //d/e:e //d:d //d:f\n  w/d/e/BUILD:1: //d/e:e -> //d:d (deps)\n  w/d/BUILD:2: //d:d -> //d/e:e (deps)\n"
          "2 targets depend on one another: //d/e:one //d/e:two\n  w/d/e/BUILD:2: //d/e:one -> //d/e:two (main)\n  w/d/e/BUILD:3: //d/e:two -> //d/e:one (deps)\n")
NAMES = ("why", "graph", "loads", "users", "cycles", "unused", "affected")
# the words, and what is written to both outputs, and the status
BOTH = ["a/BUILD:3: both: //a:a", "a/BUILD:3: both: //a:a_test", *(f"a/BUILD:5: both: //a:{it}" for it in ("x", "x_test", "y", "y_test"))]
ASKED = (
    ("why --dir w //a:a_test '//c:c in.txt'", WHY, "", 0),
    ("why --dir w //c:us //d:us", "w/c/BUILD:10: //c:us -> //d:us (includes)\n", "", 0),
    ("why --dir w //c //a", "", "why: //c:c doesn't depend on //a:a\n", 0),
    ("why --dir w //c c", "", "why: //c:c is the same target\n", 0),
    ("why --dir w //c //b:b3", "", "why: there is no target //b:b3 (did you mean '//b:b'?)\n", 2),
    ("why --dir w //c //e", "", "why: there is no target //e:e: there is no package //e\n", 2),
    ("why --dir w //c::c //e", "", "why: '//c::c' is no label: the name ':c' has the character ':'\n", 2),
    ("why --dir none //c //d", "", "why: there is no directory or bundle none\n", 2),
    ("why --program none --dir w //c //d", "", "why: no program none\n", 2),
    ("loads --dir w tools/a.bzl", "w/a/BUILD:1: //a:BUILD loads //tools:a.bzl\n"
     "w/b/BUILD:2: //b:BUILD loads //tools:b.bzl, which loads //tools:a.bzl\nw/tools/b.bzl:1: //tools:b.bzl loads //tools:a.bzl\n", "", 0),
    ("loads --dir w --direct //tools:b.bzl", "w/b/BUILD:2: //b:BUILD loads //tools:b.bzl\n", "", 0),
    ("loads --dir w //tools:c.bzl", "", "loads: no BUILD file loads //tools:c.bzl (did you mean '//tools:b.bzl'?)\n", 2),
    ("users --dir w both", "".join(f"w/{it}\n" for it in (*BOTH, "b/BUILD:4: both, by outer: //b:b", "b/BUILD:4: both, by outer: //b:b_test",
                                                          "b/BUILD:6: both, by outer: //b:b2", "b/BUILD:6: both, by outer: //b:b2_test")), "", 0),
    ("users --dir w --direct tools/a.bzl%both", "".join(f"w/{it}\n" for it in BOTH), "", 0),
    ("users --dir w genrule", "w/c/BUILD:3: genrule: //c:gen\nw/c/BUILD:3: genrule: //c:made.c\n", "", 0),
    ("users --dir w //d:us", "w/c/BUILD:10: //c:us -> //d:us (includes)\n", "", 0),
    ("users --dir w //d:none", "", "users: there is no target //d:none (did you mean '//d:f'?)\n", 2),
    ("users --dir w boht", "", "users: no file has a function 'boht' (did you mean 'both'?)\n", 2),
    ("users --dir w //tools:b.bzl%both", "", "users: //tools:b.bzl has no function 'both'\n", 2),
    ("cycles --dir w", CYCLES, "", 0),
    ("cycles --dir w 'deps(//a)'", "", "", 0),
    ("cycles --dir w 'deps('", "", "cycles: Q1 Syntax\n", 2),
    ("unused --dir w", "w/c/BUILD:8: //c:old (lib rule)\n", "", 0),
    ("unused --dir w //b/...", "", "", 0),
    ("unused --dir w --kind '^lib_test' //a/...", "".join(f"w/a/BUILD:{line}: //a:{it}_test (lib_test rule)\n" for line, it in ((3, "a"), (5, "x"), (5, "y"))), "", 0),
    ("unused --dir w --kind '('", "", "unused: '(' is no regular expression: missing ), unterminated subpattern at position 0\n", 2),
    ("graph --dir w -o w.gif //...", "", "graph: w.gif: a picture's name ends in .svg, .png, .pdf or .dot\n", 2),
    ("graph --dir w -o none/w.dot //...", "", "graph: none/w.dot: No such file or directory\n", 2),
    ("graph --dir w //nosuch", "", "graph: Q6 NoSuchPackage //nosuch:nosuch\n", 2),
)


def nodes_and_edges(text):
    """What a text for graphviz draws, but for the legend."""
    rest = re.sub(r"  subgraph cluster_legend \{.*?\n  \}\n", "", text, flags=re.S)
    return re.findall(r'^  "([^"]*)" \[', rest, re.M), re.findall(r'^  ("[^"]*" -> "[^"]*") \[', rest, re.M)


def scripts(bench):
    """The words of the scripts, over a workspace that is read as it is."""
    bench.lay_out("w", FILES)
    run = bench.called
    for words, *wanted in ASKED:
        bench.compare(f"bzlq {words}", run(words), tuple(wanted))
    for name in NAMES:
        bench.compare(f"bzlq {name} --help", run(f"{name} --help")[1:], ("", 0))
        bench.compare(f"bzlq {name} --nosuch", run(f"{name} --nosuch a b")[::2], ("", 2))
    bench.compare("a word of bzlq", bench.run(f"bzlq {ASKED[0][0]}"), ASKED[0][1:])
    for name in (*NAMES, "bundle", "hints", "stubs", "bzlq"):
        bench.compare(f"tools/{name}", bench.run(f"tools/{name} --help")[1:], ("", 0))
    found = nodes_and_edges(run("graph --dir w 'deps(//b)'")[0])
    labels = ["//b:b", "//c:c", "//c:c in.txt", "//c:c.c", "//c:gen", "//c:made.c"]
    edges = ['"//b:b" -> "//c:c"', '"//c:c" -> "//c:c.c"', '"//c:c" -> "//c:made.c"', '"//c:gen" -> "//c:c in.txt"', '"//c:made.c" -> "//c:gen"']
    bench.compare("bzlq graph", found, (labels, edges))
    found = nodes_and_edges(run("graph --packages --dir w 'deps(//a:all)'")[0])
    bench.compare("bzlq graph --packages", found, (["//a", "//b", "//c"], ['"//a" -> "//b"', '"//b" -> "//c"']))
    if shutil.which("dot"):
        bench.compare("a picture", bench.run("bzlq graph --dir w -o w.svg 'deps(//b)' && grep -c '<title>//' w.svg"), ("11\n", "", 0))
    bench.lay_out("many", {"BUILD": 'filegroup(name = "all_of_it", srcs = ["%d.c" % n for n in range(400)])\n'})
    bench.compare("more than 300 targets", nodes_and_edges(run("graph --dir many 'deps(//:all)'")[0]), (["//"], []))
    bench.compare("--targets", len(nodes_and_edges(run("graph --dir many --targets 'deps(//:all)'")[0])[0]), 401)


def places(bench):
    """A workspace with a fault, a bundle, and the one that one stands in, over an overlay."""
    bench.lay_out("f", {"BUILD": 'filegroup(name = "a", srcs = ["//b", "c"])\nfilegroup(name = "c", srcs = ["d"])\n', "e/BUILD": "1 // 0\n"})
    fault = "why: targets may be missing: {0}BUILD:1: F79 DanglingLabel //b:b\nwhy: targets may be missing: {0}e/BUILD:1: F42 DivZero\n".format("")
    bench.compare("faults", bench.run("bzlq why --dir f //:a //:d"),
                  ("f/BUILD:1: //:a -> //:c (srcs)\nf/BUILD:2: //:c -> //:d (srcs)\n", fault, 3))
    bench.compare("a bundle", bench.run("bzlq bundle w > w.bundle; bzlq users --bundle w.bundle genrule"), ("c/BUILD:3: genrule: //c:gen\nc/BUILD:3: genrule: //c:made.c\n", "", 0))
    bench.lay_out("ws", {"WORKSPACE": "", "x y/BUILD": 'load("@r//:d.bzl", "lib")\nlib(name = "x", srcs = ["a b.c"], deps = ["@r//e:f"])\n'})
    made = "why: 2 of 7 targets of the workspace are approximations: kind made up 2\n"
    bench.compare("a workspace with other repositories", bench.run("bzlq why x 'a b.c'", "ws/x y"),
                  ("BUILD:2: //x y:x -> //x y:a b.c (srcs)\n", "bzlq: reading the workspace\n" + made, 0))
    found = bench.run("bzlq why '//x y:x' @r//e:f", "ws")
    bench.compare("an edge into another repository", found, ("'x y/BUILD':2: //x y:x -> @r//e:f (deps)\n".replace("'", ""), made, 0))
    bench.compare("who loads a file of another repository", bench.run("bzlq loads @r//:d.bzl", "ws"), ("x y/BUILD:1: //x y:BUILD loads @r//:d.bzl\n", "", 0))
    bench.compare("no workspace", bench.run("bzlq why //a //b")[::2], ("", 2))


def settings(bench):
    """What WORKSPACE and MODULE.bazel load is loaded."""
    files = {"WORKSPACE": '# the first line\nload("//tools:ws.bzl", "repositories")\n', "MODULE.bazel": 'e = use_extension("//tools:extension.bzl", "e")\n',
             ".bazelrc": "build --aspects=//tools:aspect.bzl%a\n", "BUILD": 'load("//tools:both.bzl", "x")\n', "tools/BUILD": "",
             "tools/ws.bzl": 'load(":inner.bzl", "x")\nload("both.bzl", "x")\n'}
    bench.lay_out("set", {**files, **{f"tools/{it}.bzl": "x = 1\n" for it in ("inner", "extension", "aspect", "both", "dead")}})
    bench.compare("unused --bzl, by files of settings", bench.run("bzlq unused --bzl", "set"), ("tools/dead.bzl\n", "bzlq: reading the workspace\n", 0))
    bench.compare("unused --bzl --dir", bench.run("bzlq unused --bzl --dir set")[::2], ("set/tools/dead.bzl\n", 0))
    bench.run("bzlq bundle set > set.bundle")
    bench.compare("unused --bzl of a bundle", bench.run("bzlq unused --bzl --bundle set.bundle")[1:],
                  ("unused: not known: what WORKSPACE and MODULE.bazel load, which a bundle doesn't hold\n", 3))
    for word, lines in (("ws", ["WORKSPACE:2: WORKSPACE"]), ("inner", ["tools/ws.bzl:1: tools/ws.bzl"]), ("extension", ["MODULE.bazel:1: MODULE.bazel"]),
                        ("aspect", [".bazelrc:1: .bazelrc"]), ("both", ["BUILD:1: //:BUILD loads //tools:both.bzl", "tools/ws.bzl:2: tools/ws.bzl"])):
        wanted = "".join(it + "\n" if " loads " in it else f"{it} names //tools:{word}.bzl\n" for it in lines)
        bench.compare(f"loads of {word}", bench.run(f"bzlq loads tools/{word}.bzl", "set"), (wanted, "", 0))
    bench.compare("loads of nothing", bench.run("bzlq loads tools/dead.bzl", "set")[1:], ("loads: no BUILD file loads //tools:dead.bzl (did you mean '//tools:both.bzl'?)\n", 2))


def module(bench):
    """`facts` of bzlq/bq.py, with a process beside it and without."""
    program = bench.environment["BZLQ_BQ"]
    found = bq.facts(f"{bench.room}/w", "deps(//b)", program=program)
    bench.compare("the targets of facts", list(found.targets), ["//b:b", "//c:c", "//c:c in.txt", "//c:c.c", "//c:gen", "//c:made.c"])
    made = found.targets["//c:gen"]
    bench.compare("a target", (made.kind, made.file, made.line, list(made.deps)), ("genrule rule", "c/BUILD", 3, ["//c:c in.txt"]))
    bench.compare("its attributes", dict(made.attributes), {"name": "gen", "outs": ["//c:made.c"], "srcs": ["//c:c in.txt"]})
    loads = [(it.label, it.file, it.line, dict(it.symbols)) for it in found.modules["//b:BUILD"].loads]
    bench.compare("loads", loads, [("//tools:b.bzl", "tools/b.bzl", 2, {"outer": "outer", "it": "outer"})])
    bench.compare("the first line", (found.version, found.limits["modules"], found.limits["steps"]), (version(program), 16384, 1000000))
    with bq.Workspace(f"{bench.room}/f", program=program) as workspace:
        names = workspace.facts("//:a").targets["//:a"].names
        bench.compare("names, of what is there and what isn't", names, ["//:c", "//b:b"])
        faults = [str(it) for it in workspace.facts().faults]
        bench.compare("faults of facts", faults, ["BUILD:1: F79 DanglingLabel //b:b", "e/BUILD:1: F42 DivZero"])
        bench.compare("a query after them", workspace.query("//:c"), ["//:c"])
        for query, kind, said in (("deps(", bq.QueryError, "Q1 Syntax"), ("//none", bq.QueryError, "Q6 NoSuchPackage //none:none"), ("a\nb", bq.BadQuery, None)):
            bench.compare(f"facts of {query!r}", refusal(lambda query=query: workspace.facts(query)), (kind, said))
    bench.compare("facts of what isn't there", refusal(lambda: bq.facts("none", program=program))[0], bq.ProcessError)
    bench.compare("a program that tells no facts", refusal(lambda: bq.facts(f"{bench.room}/w", program="/bin/echo"))[0], bq.ProcessError)


# the first line of facts, and lines of bq 1.5
FIRST = b'{"facts":%d,"version":"1.6.0","limits":{"files":1},"targets":1,"modules":0,"faults":0}'
OLD = [b'{"target":"//a:x","kind":"lib rule","file":"a/BUILD","line":1,"attributes":{},"deps":["//a:f"]}', b'{"target":"//a:f","kind":"source file","file":"a/f"}',
       b'{"module":"//a:BUILD","file":"a/BUILD","loads":[]}']
NEW = b'{"target":"//a:x","kind":"lib rule","file":"a/BUILD","line":1,"attributes":{},"names":["//a:f","//b:g"],"deps":["//a:f"]}'


def formats(bench):
    """Facts of this format and of the one before, of a later one, and texts that were cut off."""
    old = bq.Facts.of_lines(OLD)
    told = [(it.label, it.names, list(it.deps)) for it in old.targets.values()]
    bench.compare("facts of bq 1.5", (told, list(old.modules), old.version, old.limits), ([("//a:x", None, ["//a:f"]), ("//a:f", (), [])], ["//a:BUILD"], "", {}))
    bench.compare("no facts of bq 1.5", bq.Facts.of_lines([]), bq.Facts())
    new = bq.Facts.of_lines([FIRST % 2, NEW])
    bench.compare("facts of bq 1.6", (new.targets["//a:x"].names, new.version, new.limits), (["//a:f", "//b:g"], "1.6.0", {"files": 1}))
    bench.compare("facts that were cut off", refusal(lambda: bq.Facts.of_lines([FIRST % 2])), (bq.ProcessError, "the facts were cut off: they have 0 of 1 targets"))
    bench.compare("facts of a later format", refusal(lambda: bq.Facts.of_lines([FIRST % 3, NEW])), (bq.ProcessError, "the facts are of format 3, and bq.py reads 1 and 2"))


def version(program):
    """The version of bq, as it prints it."""
    return subprocess.run([program, "--version"], capture_output=True, text=True, check=True).stdout.split()[1]


def refusal(call):
    """The error of a call, and its text but for that of a query that wasn't asked."""
    try:
        call()
    except bq.BqError as error:
        return type(error), None if isinstance(error, bq.BadQuery) else str(error)
    return None


def graphs(bench):
    """Paths, cycles and users in graphs at random, beside what follows from who reaches whom."""
    wrong = []
    for seed in range(300):
        made = random.Random(seed)
        size = made.randint(2, 9)
        graph = {at: sorted(set(made.sample(range(size), made.randint(0, min(3, size)))) - {at}) for at in range(size)}
        distance = {(one, two): 0 if one == two else 1 if two in graph[one] else 99 for one in graph for two in graph}
        for by in graph:
            distance = {(one, two): min(away, distance[one, by] + distance[by, two]) for (one, two), away in distance.items()}
        sets = {tuple(two for two in graph if distance[one, two] < 99 and distance[two, one] < 99) for one in graph}
        found = components(graph, graph.get)
        is_right = found == sorted(list(it) for it in sets if len(it) > 1)
        for members in found:
            cycle = shortest_cycle(members, graph.get)
            least = min(distance[two, one] + 1 for one in members for two in graph[one] if two in members)
            is_right &= cycle[0] == cycle[-1] and len(cycle) - 1 == least and all(two in graph[one] for one, two in zip(cycle, cycle[1:]))
        for (one, two), away in distance.items():
            way = shortest(one, two, graph.get)
            is_right &= (len(way) - 1 == away and all(to in graph[at] for at, to in zip(way, way[1:]))) if away < 99 else not way
        wrong += [] if is_right else [seed]
    bench.compare("graphs at random", wrong, [])


def check(bench):
    """Tries all of it."""
    scripts(bench)
    places(bench)
    settings(bench)
    module(bench)
    formats(bench)
    graphs(bench)
