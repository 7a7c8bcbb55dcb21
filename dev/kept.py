"""Libraries of crates as the gate builds them, kept by their texts: each is proved once on a machine, whichever clone asks for it.

rt's own modules say how a crate is checked; what is here keeps what they build in a folder of the user's cache, under a sum of the crate's
texts and of those below it. What a gate that keeps its own libraries has proved of the same text is taken from there, its sums compared as
the gate does. The gate trusts none of what is here.
"""
import contextlib
import fcntl
import glob
import hashlib
import json
import os
import shutil
import subprocess
import sys
import tempfile
import types
from concurrent.futures import FIRST_COMPLETED, ThreadPoolExecutor, wait

import kit

STORE = os.path.join(os.environ.get("XDG_CACHE_HOME") or os.path.expanduser("~/.cache"), "bq-proofs")
# what a check takes that has not been seen yet, in processor seconds and in bytes
UNKNOWN = (60, 3e9)
# files that a function's proof has, and those that list pages
NO_PAGES = ("Answers.antt", "Invariants.antt", "Proof.antt", "Lib.antt")


def rt_module():
    """rt's modules, from the command that the environment names."""
    path = os.path.realpath(shutil.which(kit.RT) or sys.exit(f"there is no {kit.RT} on the PATH"))
    sys.dont_write_bytecode = True
    return kit.module_of(path)


def walked_once(crate):
    """The libraries below a crate, each after those that it uses. rt's own walk goes along every path of crates.txt again."""
    if not hasattr(crate, "_walked"):
        crate._walked = list(dict.fromkeys(it for dep in crate.deps for it in [*walked_once(dep), dep]))
    return crate._walked


@contextlib.contextmanager
def with_all_pages_read(crate):
    """The folder of a copy of a crate that has one more function, `reads_all_pages`, whose proof imports each page of the crate. Where a check
    names functions, the prover passes over the pages that their proofs don't import: definitions and lemmas that only crates above use."""
    with tempfile.TemporaryDirectory(prefix="bench-") as folder:
        for part in kit.PARTS:
            if os.path.isdir(f"{crate.folder}/{part}"):
                shutil.copytree(f"{crate.folder}/{part}", f"{folder}/{part}")
        found = sorted(glob.glob("specs/**/*.antt", root_dir=folder, recursive=True) + glob.glob("proofs/**/*.antt", root_dir=folder, recursive=True))
        pages = [it.removesuffix(".antt").replace("/", ".") for it in found if os.path.basename(it) not in NO_PAGES]
        os.makedirs(f"{folder}/proofs/reads_all_pages")
        with open(f"{folder}/proofs/reads_all_pages/Answers.antt", "w", encoding="utf-8") as file:
            file.writelines(f"use Rattle.{crate.name}.{page} as page_{number}\n" for number, page in enumerate(pages))
        with open(f"{folder}/src/{'main' if crate.is_program else 'lib'}.rt", "a", encoding="utf-8") as file:
            file.write("\nfn reads_all_pages() {}\n")
        yield folder


class Kept:
    """The crates of a clone, each with its place in the store."""

    def __init__(self, root=kit.ROOT):
        rt = rt_module()
        self.lib, self.root, self.sums = rt.rtlib, root, {}
        self.lib.Crate = rt.Crate
        rt.Crate.below = walked_once
        # as in the gate, the crates above a library load its statements and not its proofs
        rt.Crate.cuts_libraries = True
        # (the gate's keys have what HANDLES allows)
        rt.Crate.allowed = rt.handles_of(root)
        self.gate = rt.Kept([]) if hasattr(rt, "Kept") and os.path.isdir(rt.STORE) else None
        if self.gate:
            # where an entry can't be taken (two clones take it at once, say), it stays the gate's
            self.gate.drop = lambda path: None
        # (its first call sets a signal's handler, which only the main thread may)
        self.lib.guarded()
        self.crates = {it.name: it for it in self.lib.crates_below(root)}
        self.seen = {(it["crate"], it["tests"]): (it["seconds"], it["bytes"]) for it in self.log()}
        for crate in self.crates.values():
            crate.rlib = f"{self.place(crate)}/{crate.name}.rlib"

    def log(self):
        """What checks have taken."""
        if not os.path.exists(f"{STORE}/log"):
            return []
        with open(f"{STORE}/log", encoding="utf-8") as lines:
            return [json.loads(line) for line in lines]

    def sum_of(self, crate):
        """A sum of the texts of a crate and of those below it."""
        if crate.name not in self.sums:
            found = hashlib.sha256(repr((crate.name, crate.of_kit, [self.sum_of(it) for it in crate.deps])).encode())
            with open(os.path.join(os.path.dirname(os.path.realpath(shutil.which(kit.RT))), "..", "KIT-ID"), "rb") as file:
                found.update(file.read())
            for part in kit.PARTS:
                for at, folders, files in os.walk(f"{crate.folder}/{part}"):
                    folders.sort()
                    for name in sorted(files):
                        with open(f"{at}/{name}", "rb") as file:
                            found.update(repr((os.path.relpath(at, crate.folder), name, file.read())).encode())
            self.sums[crate.name] = found.hexdigest()[:24]
        return self.sums[crate.name]

    def place(self, crate, tests=False):
        """The folder of a crate in the store."""
        return f"{STORE}/{crate.name}{'-tests' if tests else ''}-{self.sum_of(crate)}"

    def is_there(self, crate, tests=False):
        """Whether a crate was proved."""
        return os.path.exists(f"{self.place(crate, tests)}/proved")

    def run(self, words, folder, hears=None, most=None):
        """Runs the prover: its status, what it says, its processor seconds and its bytes at the peak. `hears` is called with each line when it is
        said; after `most` seconds of a processor the prover is broken off."""
        with tempfile.NamedTemporaryFile("r") as report:
            timed = ["/usr/bin/time", "-q", "-f", "%U %S %M", "-o", report.name, *(["prlimit", f"--cpu={most}"] if most else [])]
            words, said = [*self.lib.guarded(), *timed, self.lib.RATTLE, *words], []
            with subprocess.Popen(words, cwd=folder, stdin=subprocess.DEVNULL, stdout=subprocess.PIPE, stderr=subprocess.STDOUT, errors="replace") as ran:
                for line in ran.stdout:
                    said.append(line)
                    if hears:
                        hears(line)
            user, system, peak = (report.read().split() or ["0"] * 3)[-3:]
        return ran.returncode, "".join(said), float(user) + float(system), int(peak) * 1024

    def words(self, crate, tests, jobs):
        """The words that check a crate."""
        with open(os.devnull, "w", encoding="utf-8") as crate.out:
            return crate.words(["--jobs", str(jobs)], tests=tests, keeps=False)

    @contextlib.contextmanager
    def as_the_gate(self, crate):
        """A crate, with its place in the store where the gate's crates have their libraries."""
        with tempfile.TemporaryDirectory(prefix="bench-") as room:
            os.mkdir(f"{room}/out")
            os.symlink(self.place(crate), f"{room}/out/rlib")
            yield types.SimpleNamespace(name=crate.name, folder=room, is_program=crate.is_program, is_static=crate.is_static)

    def take(self, crate):
        """Takes a crate's library from what the gate keeps, if it has proved the same text over the same libraries. Returns whether it could."""
        if not self.gate or crate.is_program or crate.is_static:
            return False
        for it in crate.below():
            if it.name not in self.gate.rlibs:
                with self.as_the_gate(it) as like:
                    self.gate.is_built(like)
        # (what a run that was killed has left would be written into, and may be the gate's own)
        shutil.rmtree(crate.rlib, ignore_errors=True)
        with self.as_the_gate(crate) as like:
            return self.gate.give(like, False, self.gate.key(crate))

    def prove(self, crate, tests, jobs=1):
        """Proves a crate, or its tests, from nothing, and keeps the library. Returns what was said where that failed, and its seconds, 0 where
        it was proved elsewhere."""
        here = self.place(crate, tests)
        os.makedirs(here, exist_ok=True)
        with open(f"{here}/lock", "w", encoding="utf-8") as lock:
            # (another clone may prove the same text)
            fcntl.flock(lock, fcntl.LOCK_EX)
            if self.is_there(crate, tests):
                return None, 0
            is_taken = not tests and self.take(crate)
            status, said, seconds, peak = (0, "taken from the gate", 0, 0) if is_taken else self.build(crate, tests, jobs)
            self.sums.pop(crate.name)
            if here != self.place(crate, tests):
                return "its text changed while it was proved", seconds
            if status:
                return said, seconds
            if not is_taken:
                with open(f"{STORE}/log", "a", encoding="utf-8") as log:
                    print(json.dumps({"crate": crate.name, "tests": tests, "seconds": round(seconds, 1), "bytes": peak}), file=log)
            with open(f"{here}/proved", "w", encoding="utf-8") as file:
                file.write(said.splitlines()[-1])
            return None, seconds

    def build(self, crate, tests, jobs):
        """Proves a crate, or its tests, from nothing; gives what `run` does."""
        words = self.words(crate, tests, jobs)
        if tests or crate.is_program:
            return self.run(["check", *words], crate.folder)
        shutil.rmtree(crate.rlib, ignore_errors=True)
        return self.run(["build", *words, "--statements", "-o", crate.rlib], crate.folder)

    def gather(self, crate):
        """Takes what the gate has proved of the crates below a crate, so that it isn't read as sources."""
        for it in crate.below():
            here = self.place(it)
            if self.is_there(it) or not all(self.is_there(low) for low in it.below()):
                continue
            os.makedirs(here, exist_ok=True)
            with open(f"{here}/lock", "w", encoding="utf-8") as lock, contextlib.suppress(BlockingIOError):
                # (what another clone proves just now is read as a source)
                fcntl.flock(lock, fcntl.LOCK_EX | fcntl.LOCK_NB)
                if not self.is_there(it) and self.take(it):
                    with open(f"{here}/proved", "w", encoding="utf-8") as file:
                        file.write("taken from the gate")

    def words_over_sources(self, crate):
        """The prover's words for a crate over the libraries that are kept, and over the sources of those that aren't."""
        self.gather(crate)
        there, missing, kit_crates = [], [], {*crate.of_kit}
        for it in crate.below():
            if self.is_there(it):
                there.append(it)
            else:
                missing.append(it)
                kit_crates |= {*it.of_kit, "core"}
        root = self.lib.KIT
        words = ["--crate-name", crate.name, f"src/{'main' if crate.is_program else 'lib'}.rt", "-L", f"dependency={root}/rlibs"]
        words += [it for name in sorted(kit_crates) for it in ("--extern", f"{name}={root}/rlibs/{name}.rlib")]
        for it in there:
            words += ["--extern", f"{it.name}={it.rlib}", "-L", f"dependency={os.path.dirname(it.rlib)}"]
        for it in missing:
            words += ["--lib", f"{it.name}:{','.join([*it.of_kit, *(dep.name for dep in it.deps)])}={it.folder}/src/lib.rt"]
        words += ["--antt-project", f"{root}/rattle/logic/antt-project.json", "--logic-built", f"{root}/logic_built"]
        return [*words, "--links", f"{crate.name}=", "--jobs", "1"]

    def check(self, crate, flags, over_sources=False):
        """Checks a crate over what its last check kept in out/, and prints what the prover says. Returns its status. Over sources, where no
        flag names functions, all functions of the crate are checked, with those below that they call, and all its pages."""
        words = self.words_over_sources(crate) if over_sources else self.words(crate, False, 1)
        words = ["check", *words, *flags, "--incremental", f"{crate.folder}/out/incremental-{'over-sources' if over_sources else 'kept'}"]
        os.makedirs(f"{crate.folder}/out", exist_ok=True)
        with contextlib.ExitStack() as stack:
            folder = crate.folder
            if over_sources and "--lib" in words and not any(it.startswith(("--only", "--start")) for it in flags):
                folder = stack.enter_context(with_all_pages_read(crate))
                words += ["--only", crate.name]
            status, said, seconds, peak = self.run(words, folder)
        print(f"{said}{seconds:.0f} s of a processor, {peak / 1e9:.1f} GB")
        return status

    def tasks(self, crates, with_tests):
        """What has to be proved: the crate and whether its tests, each with the crates that it waits for."""
        wanted = {it.name: it for crate in crates for it in [*crate.below(), crate]}
        found = {(it.name, False): it for it in wanted.values() if not self.is_there(it)}
        if with_tests:
            found |= {(it.name, True): it for it in crates if it.has_tests() and not self.is_there(it, True)}
        return {key: [(it.name, False) for it in crate.below() if not self.is_there(it)] for key, crate in found.items()}

    def sweep(self, crates, with_tests, lanes, memory):
        """Proves crates and those below them, those with the longest chain above them first. Yields each with what failed, if anything,
        and its seconds."""
        waits = self.tasks(crates, with_tests)
        behind = {}

        def chain(key):
            if key not in behind:
                behind[key] = self.seen.get(key, UNKNOWN)[0] + max((chain(it) for it in waits if key in waits[it]), default=0)
            return behind[key]

        left, running, failed, ended = sorted(waits, key=chain, reverse=True), {}, set(), set()
        with ThreadPoolExecutor(lanes) as pool:
            while left or running:
                for key in [it for it in left if failed & {*waits[it]}]:
                    left.remove(key)
                    failed.add(key)
                    yield *key, "what it stands on is not proved", 0
                ready = [it for it in left if {*waits[it]} <= ended]
                for key in ready[: lanes - len(running)]:
                    needs = self.seen.get(key, UNKNOWN)[1]
                    if running and sum(it[1] for it in running.values()) + needs > memory:
                        continue
                    left.remove(key)
                    # what nothing else waits for a processor beside may take more of them
                    jobs = max(1, (lanes - len(running)) // len(ready))
                    running[pool.submit(self.prove, self.crates[key[0]], key[1], jobs)] = key, needs
                for task in wait(running, timeout=1, return_when=FIRST_COMPLETED).done:
                    key = running.pop(task)[0]
                    why, seconds = task.result()
                    (failed if why else ended).add(key)
                    yield *key, why, seconds
