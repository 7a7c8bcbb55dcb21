"""Tries bzlq/bq.py: answers and refusals beside those of runs with one query, and programs that end, hang, or write
something else than bq does."""
import os
import signal
import threading
import time
from concurrent.futures import ThreadPoolExecutor

from bench import ROOT
from bzlq.bq import BqError, Workspace

# a workspace that prints, and has faults
FAULTY = {"a/BUILD": 'print("//a:BUILD:1: F71 NoAttribute")\nfilegroup(name = "x", srcs = ["//b"])\n', "b/BUILD": "1 // 0\n",
          "c/BUILD": 'filegroup(name = "y", srcs = ["a b.c"])\n'}
QUERIES = ("//...", "deps(//app)", "  deps( //app )  ", 'kind("source file", //...:*)', "set()", "//app:none", "//none:all", "deps(", "nix(//app)",
           "somepath(//app, //log)", 'filter("(", //...)', "$v", "deps()", ":app", "-//app", "=== 0 1 //app", "=== reload now", "=== factsx", "===facts", "//app:é", "a\tb")
NO_QUERIES = ("", " \t", "# //app", "//app\n", "//app\r", "//a\n//b", "\ud800", "=== reload", "=== facts", "=== facts //app", "=== put 1 a", "=== remove a")
# what a program does until the workspace is loaded; all these are scripts of sh
LOADED = 'read -r q; echo "=== 0 0 $q"\n'
# what it is: (what the program does then, what a query gives)
PROGRAMS = {
    "a program that is killed": ("read -r q; kill -9 $$", "ProcessError: bq has ended by signal 9 (Killed)"),
    "one that ends": ("read -r q; echo 'no such luck' >&2; exit 7", "ProcessError: bq has ended with status 7: no such luck"),
    "one that has ended": ("exit 0", "ProcessError: bq has ended with status 0"),
    "an answer that breaks off": ('read -r q; printf "=== 0 2 %s\\n//:a\\n//:b" "$q"', "ProcessError: bq has ended with status 0"),
    "no memory in an answer": ('read -r q; echo "=== 0 2 $q"; echo "bq: E1 Memory" >&2; exit 4', "RunError: E1 Memory"),
    "an answer to another query": ('read -r p; echo "=== 0 0 $q"; cat', "ProcessError: bq doesn't answer as bq does: === 0 0 set()"),
    "another header": ('read -r q; echo "hello"; cat', "ProcessError: bq doesn't answer as bq does: hello"),
    "a refusal without a number": ('read -r q; echo "=== 2 1 $q"; echo no; cat', "ProcessError: bq doesn't refuse a query as bq does"),
    "one that never answers": ("exec sleep 60", "QueryTimeout: bq hasn't answered //... in 0.5 s"),
    "one that closes its output": ("read -r q; exec >&-; exec sleep 60", "ProcessError: bq has closed its output"),
    "an answer in pieces": ('read -r q; printf "=== 3"; sleep .1; printf " 2 %s\\n//" "$q"; sleep .1; printf ":a\\n//:b\\n"; cat', ["//:a", "//:b"]),
    "bytes that are no UTF-8": ('read -r q; printf "=== 0 1 %s\\n//:\\377\\n" "$q"; cat', ["//:\udcff"]),
    "labels with other ends of lines": ('read -r q; printf "=== 0 1 %s\\n//:a\\302\\205b\\014\\n" "$q"; cat', ["//:a\x85b\f"]),
}
# the same of what it does before
LOADING = {
    "a program that ends at once": ("exit 3", "ProcessError: bq has ended with status 3"),
    "one that takes other words": ("echo \"error: unexpected argument '--queries' found\" >&2; exit 2", "ProcessError: bq is too old: it has no --queries"),
    "one that never loads": ("exec sleep 60", "QueryTimeout: bq hasn't loaded the workspace in 0.5 s"),
    "a workspace that is refused": ("echo 'bq: E6 Schema' >&2; exit 2", "RunError: E6 Schema"),
}


def outcome(ask):
    """What is returned, or the error."""
    try:
        return ask()
    except BqError as error:
        return f"{type(error).__name__}: {error}"


def script(bench, text):
    """A program that is this script of sh."""
    path = f"{bench.room}/odd/bq"
    bench.lay_out("odd", {"bq": f"#!/bin/sh\n{text}\n"})
    os.chmod(path, 0o755)
    return path


def asked(bench, text, *queries, place=ROOT, **options):
    """What the queries give, asked of a script; its path is written as bq."""
    program = script(bench, text)

    def ask():
        with Workspace(place, program=program, **options) as workspace:
            return [outcome(lambda it=query: workspace.query(it)) for query in queries]

    found = outcome(ask)
    return [it.replace(program, "bq") if isinstance(it, str) else it for it in found] if queries and isinstance(found, list) else found.replace(program, "bq")


def alone(bench, words, query):
    """What a run with this query alone gives."""
    bench.lay_out("query", {"text": query})
    answer, errors, status = bench.run(f'bq {words} -- "$(cat query/text)"')
    return f"QueryError: {errors.splitlines()[-1].removeprefix('bq: ')}" if status == 2 else answer.splitlines()


def answers(bench):
    """The answers of one process are those of runs with one query."""
    bundle = f"{ROOT}/examples/macros.bundle"
    for place, words in ((f"{ROOT}/examples/macros", f"--dir {ROOT}/examples/macros"), (bundle, f"< {bundle}")):
        with Workspace(place, program=bench.program) as workspace:
            for query in QUERIES:
                bench.compare(f"bq.py, {query}", outcome(lambda it=query: workspace.query(it)), alone(bench, words, query))
            for query in NO_QUERIES:
                bench.compare(f"bq.py, {query!r}", outcome(lambda it=query: workspace.query(it)).partition(":")[0], "BadQuery")
            bench.compare("bq.py, a long query", outcome(lambda: workspace.query("x" * (2**20 + 1))), "QueryError: Q1 Syntax")
            bench.compare("bq.py, after all these", workspace.query("//log:log.c"), ["//log:log.c"])
            bench.compare("bq.py, no faults", (workspace.printed, workspace.faults), ([], []))
    with Workspace(f"{ROOT}/examples/macros", program=bench.program, output="label_kind", jobs=1, max_steps=1000, large=True) as workspace:
        bench.compare("bq.py, kinds", workspace.query("//log:log.c"), ["source file //log:log.c"])


def faults(bench):
    """What files print, fault lines, and the parts of an error."""
    bench.lay_out("f", FAULTY)
    with Workspace(f"{bench.room}/f", program=bench.program) as workspace:
        bench.compare("bq.py, faults", (workspace.printed, workspace.faults), (
            ["//a:BUILD: //a:BUILD:1: F71 NoAttribute"], ["//a:BUILD:2: F79 DanglingLabel //b:b", "//b:BUILD:1: F42 DivZero"]))
        bench.compare("bq.py, an answer beside faults", workspace.query("deps(//c:y)"), ["//c:a b.c", "//c:y"])
        try:
            workspace.query("//b")
        except BqError as error:
            bench.compare("bq.py, the parts of an error", vars(error), {"number": "Q5", "word": "NoSuchTarget", "detail": "//b:b"})
    text = "yes '//a:BUILD:1: F71 NoAttribute' | head -n 50000 >&2\n" + LOADED.replace("0 0", "3 0")
    with Workspace(ROOT, program=script(bench, text)) as workspace:
        bench.compare("bq.py, many faults", (workspace.printed, len(workspace.faults)), ([], 50000))
    with Workspace(ROOT, program=script(bench, text.replace("3 0", "0 0"))) as workspace:
        bench.compare("bq.py, prints like faults", (len(workspace.printed), workspace.faults), (50000, []))


def odd_programs(bench):
    """Programs that don't answer as bq does, and what is in the place of a program or a workspace."""
    for what, (text, wanted) in PROGRAMS.items():
        is_error = isinstance(wanted, str)
        found = asked(bench, LOADED + text, *["//..."] * (1 + is_error), timeout=0.5 if "never" in what else None)
        bench.compare(f"bq.py, {what}", found, [wanted] * (1 + is_error))
    for what, (text, wanted) in LOADING.items():
        bench.compare(f"bq.py, {what}", asked(bench, text, load_timeout=0.5 if "never" in what else None), wanted)
    many = asked(bench, LOADED + 'read -r q; echo "=== 0 300000 $q"; seq 300000; cat', "//...")[0]
    bench.compare("bq.py, a large answer", (len(many), many[-1]), (300000, "300000"))
    bench.compare("bq.py, a query that isn't read", asked(bench, LOADED + "exec sleep 60", "x" * 200000, timeout=0.5)[0].partition(":")[0], "QueryTimeout")
    bench.compare("bq.py, a query longer than a pipe", asked(bench, LOADED + LOADED + "cat", "x" * 200000), [[]])
    bench.compare("bq.py, no workspace", asked(bench, LOADED, place="none"), "ProcessError: there is no directory or bundle none")
    bench.compare("bq.py, a bundle that is none", outcome(lambda: Workspace(f"{ROOT}/README.md", program=bench.program)), "RunError: E4 Bundle")
    bench.compare("bq.py, a wrong option", outcome(lambda: Workspace(ROOT, program=bench.program, jobs=0)).partition(" for")[0],
                  "ProcessError: bq has ended with status 2: error: invalid value '0'")
    bench.compare("bq.py, no program", outcome(lambda: Workspace(ROOT, program="none")), "NoProgram: no program none")
    program = script(bench, "")
    bench.lay_out("odd", {"bq": "\x01"})
    os.chmod(program, 0o755)
    bench.compare("bq.py, a program that is none", outcome(lambda: Workspace(ROOT, program=program)), f"ProcessError: {program}: Exec format error")


def edits(bench):
    """Files that are put and removed, reloads, and the facts after them."""
    bench.lay_out("e", {"a/BUILD": 'filegroup(name = "x", srcs = ["s"])\n', "b/BUILD": "none()\n"})
    with Workspace(f"{bench.room}/e", program=bench.program) as workspace:
        before = workspace.facts()
        bench.compare("bq.py, facts before an edit", [it.label for it in before.faults], ["//b:BUILD"])
        workspace.put("c/BUILD", b'filegroup(name = "y", srcs = ["//a:x", "//d:z"])\n')
        workspace.remove("b/BUILD")
        bench.compare("bq.py, before a reload", (workspace.query("//...:all"), workspace.faults), (["//a:x"], ["//b:BUILD:1: F20 UnknownName none"]))
        bench.compare("bq.py, a reload", (workspace.reload(), workspace.faults), (["//c:BUILD:1: F79 DanglingLabel //d:z"],) * 2)
        bench.compare("bq.py, after it", workspace.query("rdeps(//..., //a:x)"), ["//a:x", "//c:y"])
        bench.compare("bq.py, its facts", [it.file for it in workspace.facts("//c:y").targets.values()], ["c/BUILD"])
        workspace.put("a", b"")
        bench.compare("bq.py, a reload that is refused", outcome(workspace.reload), "RunRefused: E4 Bundle")
        bench.compare("bq.py, after that", (workspace.query("rdeps(//..., //a:x)"), workspace.faults), (["//a:x", "//c:y"], ["//c:BUILD:1: F79 DanglingLabel //d:z"]))
        workspace.remove("a")
        workspace.put("c/BUILD", b'print("loaded")\n')
        bench.compare("bq.py, another reload", (workspace.reload(), workspace.printed), ([], ["//c:BUILD: loaded"]))
        for path in ("", "/a", "a/", "../a", "a/..", "a//b", "./a", ".", "a:b", "a\\b", "a\nb", "a\n", "é"):
            for edit in (lambda it=path: workspace.put(it, b""), lambda it=path: workspace.remove(it), lambda it=path: workspace.edit({"b/BUILD": b"x", it: None})):
                bench.compare(f"bq.py, {path!r} is edited", outcome(edit).partition(":")[0], "BadPath")
        bench.compare("bq.py, after bad paths", (workspace.reload(), workspace.query("//...:*")), ([], ["//a:BUILD", "//a:s", "//a:x", "//c:BUILD"]))
        workspace.edit({"c/BUILD": None, "a/n/b c": b"\0\n\xff", "a/BUILD": b'filegroup(name = "y", srcs = glob(["**/b c"]))\n"""\n=== a/s\n""" + none'})
        many = (["//a:BUILD:4: F20 UnknownName none"], [])
        bench.compare("bq.py, many edits", (workspace.reload(), workspace.query("//...:*")), many)
        workspace.edit({})
        bench.compare("bq.py, no edit", (workspace.reload(), workspace.query("//...:*")), many)
        workspace.put("a/BUILD", b'filegroup(name = "y", srcs = glob(["**/b c"]))\n"""\n=== a/s\n"""')
        bench.compare("bq.py, a line like a command in a file", (workspace.reload(), workspace.query("//a:*")), ([], ["//a:BUILD", "//a:n/b c", "//a:y"]))
        bench.compare("bq.py, facts of a query that is refused", outcome(lambda: workspace.facts("deps(")), "QueryError: Q1 Syntax")
    with Workspace(f"{bench.room}/e", program=bench.program) as workspace:
        bench.lay_out("e", {"a/BUILD": 'filegroup(name = "x", srcs = ["t"])\n', "a/t": ""})
        bench.compare("bq.py, facts as they are, and as they were loaded", [list(workspace.facts("//a:x", as_loaded=it).targets["//a:x"].names) for it in (False, True)], [["//a:t"], ["//a:s"]])
    bench.compare("bq.py, a closed workspace that is edited", outcome(lambda: workspace.put("a", b"")), "ProcessError: the workspace is closed")
    with Workspace(ROOT, program=script(bench, LOADED + 'read -r q; printf "=== 2 1 %s\\nbq: Q1 Syntax\\n" "$q"; cat')) as old:
        bench.compare("bq.py, a program without edits", outcome(old.reload).partition(" is ")[2], "too old: it has no edits")
    with Workspace(ROOT, program=script(bench, LOADED + 'read -r q; printf "=== 2 1 %s\\nbq: Q1 Syntax\\n" "$q"; cat')) as old:
        bench.compare("bq.py, and without facts", outcome(lambda: old.facts(as_loaded=True)).partition(" is ")[2], "too old: it has no edits")
    with Workspace(ROOT, program=script(bench, LOADED + 'read -r q; printf "=== 0 1 %s\\n{\\"x\\": 1}\\n" "$q"; cat')) as odd:
        bench.compare("bq.py, facts that are none", outcome(lambda: odd.facts(as_loaded=True)).partition(" doesn't ")[2], "tell facts as bq does")


def ends(bench):
    """Threads, interruptions, and the end of a workspace."""
    with Workspace(f"{ROOT}/examples/macros", program=bench.program) as workspace:
        wanted = [alone(bench, f"--dir {ROOT}/examples/macros", query) for query in QUERIES]
        with ThreadPoolExecutor(4) as pool:
            found = list(pool.map(lambda query: outcome(lambda: workspace.query(query)), QUERIES))
        bench.compare("bq.py, four threads", found, wanted)
    workspace.close()
    bench.compare("bq.py, a closed workspace", outcome(lambda: workspace.query("//...")), "ProcessError: the workspace is closed")
    with ThreadPoolExecutor(1) as pool:
        slow = slow_workspace(bench)
        found = pool.submit(outcome, lambda: slow.query("//..."))
        wait_until_asked(slow)
        bench.compare("bq.py, a thread that waits for another", outcome(lambda: slow.query("//log", 0.2)), "QueryTimeout: bq hasn't answered //log in 0.2 s")
        slow.close()
        bench.compare("bq.py, closed by another thread", found.result(), "ProcessError: the workspace is closed")
    interruption(bench)


def interruption(bench):
    """A query during which somebody presses Ctrl-C."""
    slow, main = slow_workspace(bench), threading.get_ident()

    def interrupt():
        wait_until_asked(slow)
        signal.pthread_kill(main, signal.SIGINT)

    with ThreadPoolExecutor(1) as pool:
        pool.submit(interrupt)
        try:
            slow.query("//...", 60)
        except KeyboardInterrupt:
            pass
    found = outcome(lambda: slow.query("//..."))
    bench.compare("bq.py, an interrupted query", found, "ProcessError: the process was ended, since a query was interrupted")


def slow_workspace(bench):
    """A workspace whose program never answers, and makes a file once it is asked."""
    return Workspace(ROOT, program=script(bench, LOADED + 'read -r q; : > "$0.asked"; exec sleep 60'))


def wait_until_asked(slow):
    """Waits until a slow program was asked."""
    while not os.path.exists(f"{slow.program}.asked"):
        time.sleep(0.01)


def open_files():
    """What this process has open, and its threads and children."""
    places = [f"/proc/self/fd/{name}" for name in os.listdir("/proc/self/fd")]
    with open(f"/proc/self/task/{threading.get_native_id()}/children", encoding="ascii") as children:
        return sorted(os.readlink(it) for it in places if os.path.exists(it)), threading.active_count(), children.read()


def check(bench):
    """Tries all of it; afterwards no file, thread or process is left."""
    before = open_files()
    for part in (answers, faults, edits, odd_programs, ends):
        part(bench)
    bench.compare("bq.py, what is left open", open_files(), before)
