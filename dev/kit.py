"""What the scripts in dev/, bench/ and tests/ share: the crates of the repository, a room outside it where one of them is checked, and what a run takes."""
import collections
import functools
import importlib.machinery
import importlib.util
import os
import re
import resource
import shutil
import subprocess
import sys
import tempfile
import time
from contextlib import contextmanager

ROOT = os.path.dirname(os.path.dirname(os.path.realpath(__file__)))
# the kit's command; the environment's RT names another that takes the same words
RT = os.environ.get("RT", "rt")
PARTS = ("src", "specs", "proofs")
# the command bzlq of this clone
BZLQ = (sys.executable, f"{ROOT}/bzlq")


def program():
    """The program that was built here, else the one of dist/, unpacked, though it may be of older files than the clone's."""
    built = f"{ROOT}/crates/bq/out/bq"
    if os.path.exists(built):
        return built
    sys.path.append(ROOT)
    from bzlq.facts.program import PACKED, put
    with open(f"{ROOT}/dist/{PACKED}", "rb") as packed:
        return put(packed.read(), f"{ROOT}/crates/bq/out/dist")


def crates():
    """The crates of crates.txt in their order, each with the names after its colon."""
    found = {}
    with open(f"{ROOT}/crates.txt", encoding="utf-8") as lines:
        for line in lines:
            name, colon, below = line.partition("#")[0].partition(":")
            if colon:
                found[name.split()[0]] = below.split()
    return found


def below(name, known):
    """The crates of the repository that this one stands on, lowest first."""
    found = []
    for it in known[name]:
        if it in known:
            found += [at for at in [*below(it, known), it] if at not in found]
    return found


@contextmanager
def room(name, known, keeps=False):
    """A copy of a crate and of those below it, which are not built again. With `keeps` also what its last check kept."""
    with tempfile.TemporaryDirectory(prefix="bench-") as folder:
        if os.path.exists(f"{ROOT}/HANDLES"):
            shutil.copy2(f"{ROOT}/HANDLES", folder)
        wanted = [*below(name, known), name]
        with open(f"{folder}/crates.txt", "w", encoding="utf-8") as made:
            made.writelines(f"{it}: {' '.join(known[it])}\n" for it in wanted)
        for crate in wanted:
            for part in PARTS:
                if os.path.isdir(f"{ROOT}/crates/{crate}/{part}"):
                    shutil.copytree(f"{ROOT}/crates/{crate}/{part}", f"{folder}/crates/{crate}/{part}")
            kept = f"{ROOT}/crates/{crate}/out" + ("" if keeps and crate == name else "/rlib")
            if (keeps or crate != name) and os.path.isdir(kept):
                shutil.copytree(kept, kept.replace(ROOT, folder, 1), symlinks=True)
        yield f"{folder}/crates/{name}"


def processor_seconds():
    """What the programs took that this one started, and that have ended."""
    used = resource.getrusage(resource.RUSAGE_CHILDREN)
    return used.ru_utime + used.ru_stime


@functools.cache
def module_of(path):
    """The module of a script, which has no .py in its name."""
    loader = importlib.machinery.SourceFileLoader(os.path.basename(path), path)
    module = importlib.util.module_from_spec(importlib.util.spec_from_loader(loader.name, loader))
    loader.exec_module(module)
    return module


Run = collections.namedtuple("Run", "clock seconds peak answer")


def timed(command, stdin=os.devnull, folder=None, statuses=(0,)):
    """Runs a command, which has to end with one of these statuses: its seconds by the clock, its processor seconds, its bytes at the peak, and what
    it writes."""
    # GNU time starts the program: a child of this process would be charged with the interpreter's memory
    with open(stdin, "rb") as given, tempfile.NamedTemporaryFile() as report:
        before, start = processor_seconds(), time.monotonic()
        ended = subprocess.run(
            ["/usr/bin/time", "-q", "-f", "%M", "-o", report.name, *command], stdin=given, capture_output=True, cwd=folder
        )
        clock, seconds = time.monotonic() - start, processor_seconds() - before
        if ended.returncode not in statuses:
            sys.exit(f"{command[0]}: status {ended.returncode}: {ended.stderr.decode(errors='replace')[-300:]}")
        return Run(clock, seconds, int(report.read()) * 1024, ended.stdout)


def peak_of(pid):
    """The bytes of a process at its peak, while it runs."""
    with open(f"/proc/{pid}/status", encoding="ascii") as lines:
        return next(int(line.split()[1]) * 1024 for line in lines if line.startswith("VmHWM:"))


def instructions(program, bundle, words, statuses=(0,)):
    """The instructions that valgrind counts in a run of the program over the bundle in a file, which has to end with one of these statuses."""
    with open(bundle, "rb") as stdin:
        counted = ["valgrind", "--tool=callgrind", "--callgrind-out-file=/dev/null", program, *words]
        ended = subprocess.run(counted, stdin=stdin, capture_output=True)
    found = re.search(rb"Collected : (\d+)", ended.stderr)
    if ended.returncode not in statuses or not found:
        sys.exit(f"valgrind: status {ended.returncode}: {ended.stderr.decode(errors='replace')[-300:]}")
    return int(found[1])
