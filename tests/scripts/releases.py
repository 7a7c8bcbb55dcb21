"""Changes of real projects, for tests/scripts/real --changes: each release of Debian's suites is a tree. Debian's patches of it are applied one by one, each
a commit, and what differs from there to the next release is put into several commits. The list of bzlq affected for each commit is held to
what follows from the facts in another way (tests/scripts/histories.py), and with a Bazel to what follows from its answers (tests/scripts/by_bazel.py)."""
import hashlib
import os
import re
import shutil
import subprocess
import tarfile
from collections import Counter, namedtuple

import histories
from bench import Bench
from by_bazel import Bazel
from bzlq.workspace.files import has_content

# (the oldest first)
SUITES = ("bullseye", "bookworm", "trixie", "trixie-backports", "sid", "experimental")
# into how many commits the difference of two releases is put
PARTS = 6
TOUCHED = re.compile(rb"^(?:---|\+\+\+) [^/\s]+/([^\t\n\r]+)", re.M)

Release = namedtuple("Release", "version tree patches")


class Real(Bench):
    """A room for projects, in which what differs is collected."""

    def __init__(self, program, room):
        super().__init__(program, room)
        self.differing = []

    def compare(self, what, found, wanted):
        """Compares, and notes what differs."""
        self.count += 1
        if found != wanted:
            self.differing.append(what)


class Releases(histories.Project):
    """A repository that has one release after another."""

    def __init__(self, bench, name):
        self.bench, self.name, self.folder, self.last = bench, name, f"{bench.room}/{name}", None
        shutil.rmtree(self.folder, ignore_errors=True)
        os.makedirs(self.folder)
        self.git("init", "-q")

    def steps_to(self, tree):
        """Commits what differs from a tree, in parts."""
        there, wanted = paths_in(self.folder), paths_in(tree)
        odd = sorted(path for path in there | wanted if entry(f"{self.folder}/{path}") != entry(f"{tree}/{path}"))
        size = max(1, -(-len(odd) // PARTS)) if there else len(odd)
        for first in range(0, len(odd), size):
            # (first what goes: a file may come where a folder was)
            for path in sorted(odd[first:first + size], key=lambda it: it in wanted):
                self.put(path, tree)
            self.commit()
            yield

    def patched(self, patches):
        """Commits each patch. (What Debian has left out of the release can't be patched.)"""
        for text in patches:
            words = [*histories.GIT, "apply", "-p1", "--whitespace=nowarn", "-"]
            if subprocess.run(words, cwd=self.folder, input=text, capture_output=True, check=False).returncode == 0:
                self.commit()
                yield

    def put(self, path, tree):
        """Writes a file as the tree has it, or removes it."""
        place = f"{self.folder}/{path}"
        if os.path.lexists(place):
            shutil.rmtree(place) if os.path.isdir(place) and not os.path.islink(place) else os.remove(place)
        if os.path.lexists(f"{tree}/{path}"):
            above = os.path.dirname(place)
            while not os.path.isdir(above) and len(above) > len(self.folder):
                if os.path.lexists(above):
                    os.remove(above)
                above = os.path.dirname(above)
            os.makedirs(os.path.dirname(place), exist_ok=True)
            shutil.copy2(f"{tree}/{path}", place, follow_symlinks=False)


def paths_in(tree):
    """The files and links of a tree."""
    found = set()
    for at, folders, names in os.walk(tree):
        folders[:] = [it for it in folders if it != ".git"]
        links = [it for it in folders if os.path.islink(f"{at}/{it}")]
        found |= {os.path.relpath(f"{at}/{name}", tree) for name in [*names, *links]}
    return found


def entry(path):
    """What a file or link is."""
    if os.path.islink(path):
        return os.readlink(path)
    if not os.path.isfile(path):
        return None
    with open(path, "rb") as file:
        return file.read(), os.access(path, os.X_OK)


def patches_of(path):
    """The patches of a source package, from the tarball that has Debian's part of it, in their order."""
    with tarfile.open(path) as archive:
        found = {member.name.removeprefix("./").removeprefix("debian/patches/"): member for member in archive if member.isfile()}
        series = archive.extractfile(found["series"]).read().decode() if "series" in found else ""
        names = [line.split()[0] for line in series.splitlines() if line.strip() and not line.startswith("#")]
        return [archive.extractfile(found[name]).read() for name in names if name in found]


def shown(patches):
    """What a file of a tree holds: its bytes where they count or are patched, else their sum, which differs where they do."""
    whole = {path.decode("utf-8", "surrogateescape") for text in patches for path in TOUCHED.findall(text)} | {".bazelignore"}
    return lambda path, data: data() if has_content(path) or path in whole else hashlib.sha256(data()).hexdigest().encode()


def row(program, folder, name, found, repositories):
    """The figures of a project's changes, by the columns of the table, and what is missing. With repositories Bazel is asked too."""
    bench = Real(program, f"{folder}/changes")
    project, figures, missing = Releases(bench, name), Counter(), []
    bazel = Bazel(project.folder, bench.room, repositories) if repositories else None
    for at, release in enumerate(found):
        for is_patch, steps in ((False, project.steps_to(release.tree)), (True, project.patched(release.patches))):
            for _ in steps:
                wanted = bazel.concerned() if bazel else None
                if not at and not is_patch:
                    continue
                listed, errors, labels = histories.compared(project, f"{name}, change {figures['changes']}", False)
                is_safe = "targets may be missing" not in errors
                figures.update(changes=1, patches=is_patch, concerning=bool(listed), listed=len(listed), of=len(labels), unsafe=not is_safe)
                figures.update(by_bazel=wanted is not None)
                # (what stands in for another repository's macro may declare less)
                if wanted is not None and is_safe and (lacking := (wanted & labels) - {*listed}):
                    missing.append(f"{name}, change {figures['changes'] - 1}: missing, by Bazel: {' '.join(sorted(lacking))}")
    if bazel:
        bazel.stop()
    missing += [it for it in bench.differing if it.endswith("missing")]
    return [figures[it] for it in ("changes", "patches", "concerning", "listed", "of", "unsafe", "by_bazel")] + [len(missing)], missing
