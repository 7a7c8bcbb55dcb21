"""Cuts generated workspaces into parts, joins the facts of these by `bzlq join`, and holds each answer to that of a run over the whole: the same
lines, the same faults, the same status; by SQLite, and by workers of Dask where it is installed."""
import contextlib
import json
import os
import random
import re
import shutil
import signal
import socket
import sqlite3
import subprocess
import sys
import tempfile
import time

if __name__ == "__main__":
    sys.path[0] = os.path.dirname(os.path.dirname(os.path.dirname(os.path.realpath(__file__))))
from bzlq.bq import QueryError
from bzlq.cli.join import FORMS, asked
from bzlq.facts.database import made
from bzlq.facts.parts_query import check_words, matching, read
from bzlq.facts.sections import sections
from bzlq.workspace.bundle import written
from bzlq.workspace.parts import Parts

SCHEMA = "rule lib\nattr srcs label_list\nattr deps label_list\nattr main label\nattr n int\nattr text string\n\nrule lib_test\nattr deps label_list\n" \
         "\nrule genrule\nattr srcs label_list\nattr outs output_list mandatory\n"
# what a .bzl file may say beside its loads
BZL = (
    'def made(name, deps = []):\n    native.lib(name = name, srcs = native.glob(["*.c", "sub/**"]), deps = deps)\n',
    'def made(name, deps = []):\n    native.lib(name = name, deps = deps + ["{label}"])\n',
    'def _impl(ctx):\n    pass\n\nkind_{n} = rule(implementation = _impl, attrs = {{"deps": attr.label_list(default = ["{label}"])}})\n\n'
    'def made(name, deps = []):\n    kind_{n}(name = name, deps = deps)\n    kind_{n}(name = name + "_default")\n',
    'def made(name, deps = []):\n    native.package_group(name = name, includes = deps)\n',
    'x = 1 // 0\n',
    'made = 1\n',
)
# what a BUILD file may call, beside what it loads
CALLS = (
    'lib(name = "l{n}", srcs = glob(["**"]), deps = {labels})\n', 'lib(name = "l{n}", main = "{label}", n = {n}, text = "it\'s \\\\ \\"{n}\\"")\n',
    'lib_test(name = "t{n}_test", deps = {labels})\n', 'genrule(name = "g{n}", outs = ["made{n}.c"], srcs = {labels})\n',
    'package_group(name = "p{n}", includes = {labels})\n', 'exports_files(["x{n}.c", "a.c"])\n', 'filegroup(name = "none")\n', 'fail("\\xff no")\n',
    'lib(name = "l{n}", srcs = ["sub/x.c", "a/b.c", ":a.c"])\n', 'package(default_visibility = ["//visibility:public"])\n', 'lib(name = "twice")\nlib(name = "twice")\n',
    'lib(name = "BUILD", deps = {labels})\n',
)
# how often the last six are taken, since with one of them a file has no targets or few
RARE = 0.06
# how many workspaces are generated
SEEDS = 12
# how many workers Dask has, and how long one may take to start, in seconds
WORKERS, PATIENCE = 4, 300
# a Slurm of one machine that asks nobody who one is
SLURM = """ClusterName=loopback
SlurmctldHost={host}(127.0.0.1)
NodeName={host} NodeAddr=127.0.0.1 CPUs={processors}
PartitionName=all Nodes={host} Default=YES
SlurmctldPort={control}
SlurmdPort={node}
SlurmUser=root
AuthType=auth/none
CredType=cred/none
ProctrackType=proctrack/linuxproc
TaskPlugin=task/none
MpiDefault=none
StateSaveLocation={room}/state
SlurmdSpoolDir={room}/spool
SlurmctldPidFile={room}/slurmctld.pid
SlurmdPidFile={room}/slurmd.pid
"""
QUERIES = ("//...", "//...:*", "deps(//...)", "rdeps(//..., {0})", "allpaths({1}, {0})", "deps({1}) + rdeps(//..., {0}, 2)", "deps({1}, 3) - {0}", "rdeps(deps({1}), {0})",
           "let x = deps({1}) in $x ^ rdeps($x, set({0} {2}))", 'kind("^lib|test rule$", deps({1}))', "{2}", "//d0/...:all-targets + @r//...", "//d1:all + //d2:*",
           "allpaths(//..., deps({0}, 1))", "rdeps({1} + {2}, {0}, 1)", "//nosuch:all", "//d0:nosuch")


def workspace(seed):
    """The files of a workspace."""
    made_by = random.Random(seed)
    pick, n = made_by.choice, iter(range(10 ** 6))
    directories = [f"d{it}" for it in range(made_by.randint(2, 5))]
    directories += [f"{it}/{name}" for it in directories for name in ("sub", "a", "deep/er") if made_by.random() < 0.4] + ([""] if made_by.random() < 0.5 else [])
    directories += ["external/r", "external/r/e"] if made_by.random() < 0.4 else []
    full = {it: ("@r//" + it.removeprefix("external/r").lstrip("/") if it.startswith("external") else f"//{it}") for it in directories}
    names = ["a.c", "x1.c", "sub/x.c", "a/b.c", "nosuch", "twice", "BUILD", *(f"{kind}{at}" for kind in "lgp" for at in range(40))]

    def label():
        return f"{full[pick(directories)] if made_by.random() < 0.95 else '//nosuch'}:{pick(names)}"

    files = {"rules.schema": SCHEMA}
    loadable = []
    for directory in directories:
        before = f"{directory}/" if directory else ""
        for path in ("a.c", "b c.c", "sub/x.c", "a/b.c", "deep/er/y.c"):
            if made_by.random() < 0.6:
                files[before + path] = ""
        for name in ("m.bzl", "sub/m.bzl", "n.bzl"):
            if made_by.random() < 0.5:
                loads = [f'load("{pick(loadable)}", v{next(n)} = "made")\n' for _ in range(made_by.randint(0, 2)) if loadable]
                files[before + name] = "".join(loads) + pick(BZL if made_by.random() < 0.3 else BZL[:4]).format(n=next(n), label=label())
                loadable.append(f"{full[directory]}:{name}")
    loadable += ["//d0:nosuch.bzl", "//nosuch:m.bzl"] if made_by.random() < 0.3 else []
    for directory in directories:
        text = ""
        for _ in range(made_by.randint(0, 3)):
            if loadable:
                at = next(n)
                text += f'load({pick(("", " ", "# a comment" + chr(10)))}"{pick(loadable)}", f{at} = "made")\nf{at}("l{made_by.randint(0, 39)}_{at}", deps = {json.dumps([label(), label()])})\n'
        for _ in range(made_by.randint(0, 8)):
            call = pick(CALLS[6:]) if made_by.random() < RARE else pick(CALLS[:6])
            text += call.format(n=next(n) % 40, label=label(), labels=json.dumps(sorted({label() for _ in range(made_by.randint(0, 3))})))
        files[f"{directory}/{pick(('BUILD', 'BUILD.bazel'))}".lstrip("/")] = text
    return {path: text.encode("latin-1") for path, text in files.items()}


def run(program, bundle, *words):
    """What a run over a bundle writes to both outputs, and its status."""
    ended = subprocess.run([program, "--jobs=2", *words], input=bundle, capture_output=True, check=False)
    return ended.stdout, ended.stderr, ended.returncode


def bundle_of(files):
    """The bundle of files."""
    return b"".join(written(path, text) for path, text in sorted(files.items()))


def text_of(lines):
    """Lines as a run writes them."""
    return "".join(f"{it}\n" for it in lines).encode("utf-8", "surrogateescape")


def joined(program, files, count):
    """The sections of the facts of parts."""
    parts = Parts(files, files.__getitem__, count)
    for at in range(len(parts.parts)):
        yield from sections(run(program, parts.bundle(at), "--facts")[0].splitlines(True), f"part {at + 1}")


def answer(found, query, program):
    """The status of a query over a database, and its lines, as a session's block has them."""
    try:
        rows = [FORMS["label_kind"](*row) for row in found.rows(asked(found, query, program))]
    except QueryError as error:
        return 2, [f"bq: {error}"]
    return 3 if found.faults() else 0, rows


def answers(program, bundle, queries):
    """The same of many queries over a bundle, and the fault lines."""
    text = text_of(queries)
    with tempfile.NamedTemporaryFile() as file:
        file.write(bundle)
        file.flush()
        ended = subprocess.run([program, "--output=label_kind", "--bundle", file.name, "--queries", "-"], input=text, capture_output=True, check=False)
    lines, found = iter(ended.stdout.decode().splitlines()), {}
    for header in lines:
        _, status, count, query = header.split(" ", 3)
        found[query] = int(status), [next(lines) for _ in range(int(count))]
    return found, ended.stderr.decode("utf-8", "surrogateescape").splitlines()


def generated(bench, seeds):
    """The answers over parts of generated workspaces."""
    shapes = {"edges": 0, "faults": 0, "dangling": 0}
    for seed in seeds:
        files = workspace(seed)
        whole = bundle_of(files)
        labels = [it for it in run(bench.program, whole, "deps(//...) + //...:*")[0].decode().splitlines() if " " not in it] or ["//d0:BUILD"]
        picked = [random.Random(seed).choice(labels) for _ in range(3)]
        wanted, faults = answers(bench.program, whole, [it.format(*picked) for it in QUERIES])
        for count in (1, 2, 20):
            found = made(joined(bench.program, files, count))
            bench.compare(f"{seed}: what {count} parts lack, and their faults", (found.lacking(), found.faults()), ([], faults))
            for query, of_whole in wanted.items():
                bench.compare(f"{seed} by {count} parts: {query}", answer(found, query, bench.program), of_whole)
        shapes["edges"] += found.rows("SELECT count(*) FROM edge").fetchone()[0]
        shapes["faults"] += len(found.faults())
        shapes["dangling"] += found.rows("SELECT count(*) FROM fault WHERE number = 79").fetchone()[0]
    bench.compare("generated workspaces have edges, faults and labels that name nothing", all(it > 10 for it in shapes.values()), True)


FEW = {
    "rules.schema": "rule lib\nattr deps label_list\n", "a/BUILD": 'lib(name = "a", deps = ["//b", "//c:none"])\n', "b/BUILD": 'lib(name = "b", deps = ["//c"])\n',
    "c/BUILD": 'lib(name = "c", deps = ["f.txt"])\n', "c/f.txt": "",
}
# what is said of a label that names nothing, which is a fault of each answer over these files
NONE = "//a:BUILD:1: F79 DanglingLabel //c:none\n"


def commands(bench):
    """The words, and what they say of parts that aren't there or aren't whole."""
    bench.lay_out("w", FEW)
    run = bench.run
    bench.compare("a folder", run("bzlq facts --split 3 -o parts --dir w"), ("".join(f"parts/part-{it}.bundle\n" for it in (1, 2, 3)), "", 0))
    run("for it in 1 2 3; do bq --bundle parts/part-$it.bundle --facts > parts/$it.facts; done")
    whole = run('bq --dir w "rdeps(//..., //c:f.txt)"')
    bench.compare("rdeps", run('bzlq join -q "rdeps(//..., //c:f.txt)" parts/*.facts'), whole)
    bench.compare("what they hold", run("bzlq join -o whole.db parts/*.facts"), ("7 targets, 3 edges, 3 packages, 1 fault\n", NONE, 3))
    bench.compare("a database", run('bzlq join -q "rdeps(//..., //c:f.txt)" whole.db'), whole)
    sql, *_ = run('bzlq join --sql -q "rdeps(//..., //c:f.txt)" whole.db')
    with contextlib.closing(sqlite3.connect(f"{bench.room}/whole.db")) as database:
        bench.compare("its statement", "".join(f"{label}\n" for label, _ in database.execute(sql)), whole[0])
    bench.compare("through a pipe", run('bzlq facts --split 2 --dir w | bzlq join -q "deps(//a)" -'), run('bq --dir w "deps(//a)"'))
    bench.compare("facts of the whole", run('bq --dir w --facts 2> all.txt > all; bzlq join -q "deps(//a)" all'), run('bq --dir w "deps(//a)"'))
    odd_databases(bench)
    bench.compare("more parts than packages", run("bzlq facts --split 9 -o more --dir w; bzlq join -q //... more/*.bundle")[1].splitlines()[0],
                  "facts: 3 parts, since there are no more packages")
    missing = "join: of 3 parts 1 is missing: 3\n"
    bench.compare("a part that is missing", run("bzlq join -q 'deps(//b)' parts/1.facts parts/2.facts"),
                  ("//b:b\n", NONE + "//b:BUILD:1: F79 DanglingLabel //c:c\n" + missing, 3))
    run("head -3 parts/2.facts > cut; : > empty; bq --dir w --facts //b > query; bzlq facts --split 2 -o two --dir w; bq --bundle two/part-1.bundle --facts > other")
    for files, said in (("parts/1.facts cut", "cut was cut off: it has 2 of 2 targets"), ("empty", "empty is empty: the run that should have written it has failed"),
                        ("query", "query lacks the target //a:BUILD: facts of a query can't be joined, only those of a whole part"),
                        ("parts/1.facts other", "other is a part of another split than parts/1.facts: cut the workspace once, and load all parts of that"),
                        ("w/a/BUILD", "w/a/BUILD:1 is no line of facts"), ("whole.db parts/1.facts", "a database is joined already: name it alone, and without -o"),
                        ("none", "none: No such file or directory")):
        found = run(f"bzlq join {files}")
        bench.compare(f"bzlq join {files}", (found[0], found[1].replace("it has 0 of 2 modules", "it has 2 of 2 targets").splitlines()[-1:], found[2]), ("", [f"join: {said}"], 2))
    for query, said in (("deps(", "Q1 Syntax"), ("//none", "Q6 NoSuchPackage //none:none"), ("//a:none", "Q5 NoSuchTarget //a:none"),
                        ("filter(a, //...)", "filter isn't answered over parts; the column `attributes` of the table `target` has what it looks at, as JSON")):
        bench.compare(query, run(f"bzlq join -q '{query}' whole.db"), ("", f"{NONE}join: {said}\n", 2))
    with open(f"{bench.room}/examples/kubernetes/facts.yaml", encoding="utf-8") as file:
        line = re.search(r"args: \['(.*)'\]\n", file.read())[1].replace("/parts/", "jobs/")
    run(f"mkdir array jobs; cp parts/*.bundle array; cp parts/*.bundle jobs; echo '{line}' > job")
    for words, folder in (("SLURM_ARRAY_TASK_ID=$((it + 1)) sh examples/slurm/facts.sbatch array", "array"), ("JOB_COMPLETION_INDEX=$it sh job", "jobs")):
        bench.compare(words, run(f"for it in 0 1 2; do {words} || exit; done 2> {os.devnull}"), ("", "", 0))
        bench.compare(f"{words}, joined", run(f"bzlq join -q 'rdeps(//..., //c:f.txt)' {folder}/*.facts"), whole)
    bench.compare("without Dask", run("mkdir without; echo 'raise ImportError' > without/dask.py; PYTHONPATH=without python3 bzlq join --dask tcp://127.0.0.1:1 -q //... parts/1.facts"),
                  ("", "join: Dask isn't installed: apt-get install python3-distributed (Debian), or pip install distributed\n", 2))
    bench.compare("no BUILD file", run("mkdir none2; bzlq facts --split 2 --dir none2"), ("", "facts: there is no BUILD file, so there is nothing to cut\n", 2))


def odd_databases(bench):
    """Facts whose lines another program has written anew, and a database that wasn't finished."""
    with open(f"{bench.room}/all", encoding="utf-8") as lines, open(f"{bench.room}/sorted", "w", encoding="utf-8") as file:
        file.writelines(json.dumps(json.loads(it), sort_keys=True) + "\n" for it in lines)
    bench.run("for it in all sorted; do bzlq join -o $it.db $it; done")
    found = []
    for name in ("all", "sorted"):
        with contextlib.closing(sqlite3.connect(f"{bench.room}/{name}.db")) as database:
            found.append([(label, json.loads(text)) for label, text in database.execute("SELECT label, attributes FROM target ORDER BY label")])
    bench.compare("attributes of facts that another program wrote anew", found[1], found[0])
    bench.compare("attributes are there", {"name": "a", "deps": ["//b:b", "//c:none"]} in [it for _, it in found[0]], True)
    with contextlib.closing(sqlite3.connect(f"{bench.room}/all.db")) as database:
        database.execute("DROP INDEX edge_back")
    bench.compare("a database that wasn't finished", bench.run("bzlq join all.db"), ("", "join: all.db is a database that bzlq join hasn't made, or not to its end\n", 2))


class Processes:
    """Processes of a room, which end with it; each has a log."""

    def __init__(self, room):
        os.mkdir(room)
        self.room, self.processes, self.environment = room, [], dict(os.environ)

    def start(self, name, words):
        """Starts a process, whose log has its name."""
        with open(f"{self.room}/{name}.log", "wb") as log:
            self.processes.append(subprocess.Popen(words, stdin=subprocess.DEVNULL, stdout=log, stderr=subprocess.STDOUT, cwd=self.room, env=self.environment))

    def wait(self, what, is_there):
        """Waits until something is there."""
        end = time.monotonic() + PATIENCE
        while not is_there():
            if time.monotonic() > end:
                raise TimeoutError(f"{what} has not started in {PATIENCE} s")
            time.sleep(0.2)

    def has_said(self, name, text):
        """Whether a log has a text."""
        with open(f"{self.room}/{name}.log", encoding="utf-8") as log:
            return text in log.read()

    def __enter__(self):
        return self

    def __exit__(self, *_):
        for it in self.processes:
            it.kill()
            it.wait()


class Cluster(Processes):
    """A scheduler of Dask, and workers, each a process of its own, on the loopback address."""

    def __init__(self, python, room, count):
        super().__init__(room)
        words = [python, "-m"]
        self.start("scheduler", [*words, "distributed.cli.dask_scheduler", "--host", "127.0.0.1", "--port", "0", "--no-dashboard", "--scheduler-file", f"{room}/scheduler.json"])
        self.wait("scheduler", lambda: os.path.exists(f"{room}/scheduler.json") and os.path.getsize(f"{room}/scheduler.json"))
        with open(f"{room}/scheduler.json", encoding="utf-8") as file:
            self.address = json.load(file)["address"]
        for at in range(count):
            self.start(f"worker{at}", [*words, "distributed.cli.dask_worker", self.address, "--nthreads", "1", "--no-nanny", "--no-dashboard", "--host", "127.0.0.1",
                                       "--local-directory", f"{room}/worker{at}"])
        for name in [f"worker{at}" for at in range(count)]:
            self.wait(name, lambda name=name: self.has_said(name, "Registered to"))


class Slurm(Processes):
    """A controller of Slurm with one node, this machine, on the loopback address."""

    def __init__(self, room):
        super().__init__(room)
        host = socket.gethostname().partition(".")[0]
        self.environment["SLURM_CONF"] = f"{room}/slurm.conf"
        with open(f"{room}/slurm.conf", "w", encoding="utf-8") as file:
            file.write(SLURM.format(host=host, room=room, processors=os.cpu_count(), control=free_port(), node=free_port()))
        os.mkdir(f"{room}/state")
        self.start("slurmctld", ["slurmctld", "-D"])
        self.start("slurmd", ["slurmd", "-D"])
        self.wait("Slurm", lambda: "idle" in self.run("sinfo", "-h", "-o", "%T").stdout)

    def run(self, *words):
        """Runs a command of Slurm."""
        return subprocess.run(words, cwd=self.room, env=self.environment, capture_output=True, text=True, check=False)


def free_port():
    """A port of the loopback address that nothing uses."""
    with socket.socket() as found:
        found.bind(("127.0.0.1", 0))
        return found.getsockname()[1]


def by_slurm(bench):
    """A job array that makes the facts of parts."""
    if os.getuid() or not all(map(shutil.which, ("slurmctld", "slurmd", "sbatch"))):
        print("Slurm isn't installed, or this isn't root: no job array was tried with it")
        return
    bench.run("mkdir slurm-parts; cp parts/*.bundle slurm-parts")
    with Slurm(f"{bench.room}/slurm") as slurm:
        slurm.environment["BQ"] = bench.program
        found = slurm.run("sbatch", "--wait", "--mem=0", "--array=1-3", f"{bench.room}/examples/slurm/facts.sbatch", f"{bench.room}/slurm-parts")
        bench.compare(f"a job array of Slurm {found.stderr}", found.returncode, 0)
    bench.compare("a job array of Slurm, joined", bench.run("bzlq join -q 'rdeps(//..., //c:f.txt)' slurm-parts/*.facts"), bench.run('bq --dir w "rdeps(//..., //c:f.txt)"'))


def program_that(bench, name, line):
    """A program that is bq, but does what a line says before it writes facts."""
    path = f"{bench.room}/{name}"
    with open(path, "w", encoding="utf-8") as file:
        file.write(f'#!/bin/sh\ncase " $* " in *" --facts"*) {line};; esac\nexec {bench.program} "$@"\n')
    os.chmod(path, 0o755)
    return path


def by_dask(bench):
    """The same over workers of Dask, of which one is killed while it loads a part, and one once all are loaded."""
    python = next((it for it in (sys.executable, "/usr/bin/python3") if not subprocess.run([it, "-c", "import distributed"], capture_output=True, check=False).returncode), "")
    if not python:
        print("Dask isn't installed: nothing was tried with it")
        return
    loads = f"{bench.room}/loads"
    counting = program_that(bench, "counting", f"echo >> {loads}")
    killing = program_that(bench, "killing", f"mkdir {bench.room}/killed 2> {os.devnull} && kill -9 $PPID")
    with Cluster(python, f"{bench.room}/dask", WORKERS) as cluster:
        jobs, wanted = [], []
        for seed in range(3):
            files = workspace(seed + 100)
            parts = Parts(files, files.__getitem__, 4)
            paths = [f"{bench.room}/{seed}-{at}.bundle" for at in range(len(parts.parts))]
            for at, path in enumerate(paths):
                with open(path, "wb") as file:
                    file.write(parts.bundle(at))
            queries = [it.format("//d0:BUILD", "//d1:BUILD + //...", "//d1:BUILD") for it in QUERIES]
            answered, faults = answers(bench.program, bundle_of(files), queries)
            wanted.append({"faults": faults, "lacking": [], "answers": {query: [status, lines] for query, (status, lines) in answered.items()}})
            jobs.append({"parts": paths, "queries": queries, "program": (counting, killing, bench.program)[seed], "kill": [cluster.processes[1].pid] if seed == 2 else []})
        with open(f"{bench.room}/jobs.json", "w", encoding="utf-8") as file:
            json.dump(jobs, file)
        ended = subprocess.run([python, os.path.abspath(__file__), cluster.address, f"{bench.room}/jobs.json"], capture_output=True, text=True, check=False)
        found = [json.loads(it) for it in ended.stdout.splitlines()]
        bench.compare(f"runs by Dask {ended.stderr[-2000:] if len(found) < len(jobs) else ''}", len(found), len(jobs))
        with open(loads, encoding="utf-8") as file:
            bench.compare("each part is loaded once", len(file.readlines()), len(jobs[0]["parts"]))
        for seed, (one, other) in enumerate(zip(found, wanted)):
            bench.compare(f"faults by Dask, {seed}", (one["faults"], one["lacking"]), (other["faults"], other["lacking"]))
            for query, answered in other["answers"].items():
                bench.compare(f"{query} by Dask, {seed}", one["answers"][query], answered)
        gone = [it.poll() for it in cluster.processes].count(-signal.SIGKILL)
        bench.compare("workers that were killed", gone >= 2 or gone == 1 and cluster.processes[1].poll() is not None, True)
        bench.compare("a command by Dask", bench.run(f"{python} bzlq join --dask {cluster.address} -q 'rdeps(//..., //c:f.txt)' parts/*.bundle"),
                      bench.run('bq --dir w "rdeps(//..., //c:f.txt)"'))


def drive(address, path):
    """Asks workers of Dask what a file says, and writes what they answer."""
    from bzlq.facts.by_dask import Joined
    with open(path, encoding="utf-8") as file:
        jobs = json.load(file)
    for job in jobs:
        with Joined(address, job["parts"], job["program"]) as found:
            for it in job["kill"]:
                os.kill(it, signal.SIGKILL)
            print(json.dumps({"faults": found.faults, "lacking": found.lacking, "answers": {it: answer_of(found, it, job["program"]) for it in job["queries"]}}), flush=True)


def answer_of(found, query, program):
    """The status of a query by workers of Dask, and its lines."""
    try:
        tree = read(program, query)
        check_words(tree, found.has_package, found.has_target)
        rows = found.answer(tree, lambda pattern: matching(program, pattern, found.kinds))
    except QueryError as error:
        return 2, [f"bq: {error}"]
    return 3 if found.faults else 0, [FORMS["label_kind"](*it) for it in rows]


def check(bench):
    """Tries all that."""
    if not run(bench.program, b"=== BUILD\n", "--facts")[0].startswith(b'{"facts":'):
        bench.lay_out("old", {"BUILD": ""})
        said = bench.run("bq --dir old --facts > old.facts; bzlq join old.facts")
        bench.compare("facts without `names`", (said[0], said[1].startswith("join: old.facts begins with no line"), said[2]), ("", True, 2))
        print("this bq writes facts without `names`: nothing else was tried")
        return
    commands(bench)
    by_slurm(bench)
    by_dask(bench)
    generated(bench, range(SEEDS))


if __name__ == "__main__":
    drive(*sys.argv[1:])
