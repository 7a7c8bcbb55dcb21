"""The bundle of a workspace after small changes, without making all of it anew: takes what is kept of it and what is there now, gives a `Patch`, or
nothing where more may depend on a change than is told here.

Small are: files that come and go and whose bytes don't count, and edits of BUILD files of which the schema, the stubs and the copies of other files
come out as before. Where a file says the same things as before, but for its lines, that is so; else all files are looked at again, though not read.
What depends on the targets that a package then has (which labels lead to nothing, and so get
a target in the overlay; which tests a suite of all has) is asked of bq over the patched bundle, in the session of the query: where an answer isn't
the one of before, all is made anew.
"""
import os
import re
import time
from collections.abc import Mapping

from bzlq.cache.fingerprint import entry_of, names_in, sum_of
from bzlq.cache.folder import open_own
from bzlq.cache.readings import packed, unpacked
from bzlq.overlay import stubs
from bzlq.overlay.analysis import Facts, Workspace
from bzlq.overlay.arguments import LABEL as GIVEN
from bzlq.overlay.copies import copied
from bzlq.overlay.extra_targets import phantoms
from bzlq.overlay.reading import read
from bzlq.workspace.bundle import has_header, written
from bzlq.workspace.files import SCHEMA, Unreadable, content, has_content, is_path, likely_root

DANGLING = re.compile(rb" F79 DanglingLabel ([^\n]+)$", re.M)
HEADER = re.compile(rb"^=== ([^\n]*)\n", re.M)
# the label of each line of an answer, with a kind before it or without
LINE = re.compile(r"^(?:(?:source file|generated file|package group|\S+ rule) )?([^\n]+)$", re.M)
# a regular expression for the tags of a test that a suite of all leaves out
MANUAL = r"[\[ ]manual[,\]]"
# a BUILD file of the overlay that has a target for each label that is named
NAMED = re.compile(r"external/(?!bzlq/).*/BUILD")
# of how many packages bq is asked
MOST = 40


class TooMuch(Exception):
    """All is to be made anew."""


class Patch:
    """`texts` has what files have in the bundle now, `laid` what they have in the overlay, None where there is nothing; `packages` those whose
    targets may differ; `made` and `warnings` what is to be kept."""

    def __init__(self, root, overlay, seen, made, readings, warnings):
        self.root, self.overlay, self.seen, self.made, self.readings, self.warnings = root, overlay, seen, made, readings, warnings
        self.copies, self.texts, self.laid, self.files, self.is_deep = {}, {}, {}, {}, False
        if seen.odd != made["odd"] or seen.files.keys() != made["files"].keys() or not made["is_whole"]:
            raise TooMuch
        changed = [path for path in seen.files if self.is_changed(path)]
        self.came, self.gone = self.names()
        if any(os.path.basename(path) not in ("BUILD", "BUILD.bazel") for path in changed):
            raise TooMuch
        self.read(changed)
        self.packages = {os.path.dirname(path) for path in changed} | {self.owner(path) for path in (*self.came, *self.gone)} - {None}
        if len(self.packages) > MOST:
            raise TooMuch

    def is_changed(self, path):
        """Whether a file may have other bytes than before."""
        before, now = self.made["files"][path], self.seen.files[path]
        if before == now:
            return False
        # (a file that had changed just before it was read may have changed again within a tick of the clock: its bytes tell. A link that leads nowhere
        # has nothing here)
        return len(before) < 6 or before[:1] != now[:1] or before[5] != (now[5] if len(now) > 5 else sum_of(os.path.join(self.root, path)))

    def names(self):
        """The paths that have come and gone, whose bytes don't count."""
        before, now = self.made["names"], self.seen.names
        found = [], []
        for directory in before.keys() | now.keys():
            if before.get(directory) != now.get(directory):
                old, new = (set(names_in(it.get(directory, ""))) for it in (before, now))
                if (new ^ old) and directory in self.made["links"] | self.seen.links and not old & new:
                    raise TooMuch
                for names, paths in ((new - old, found[0]), (old - new, found[1])):
                    paths += [f"{directory}/{name}" if directory else name for name in names]
        for path in (*found[0], *found[1]):
            self.check_name(path)
        if any(os.path.islink(os.path.join(self.root, path)) for path in found[0]):
            raise TooMuch
        return found

    def check_name(self, path):
        """Refuses a path on which more depends than globs and labels."""
        label = f"//{self.owner(path) or ''}:"
        is_named = any(it.startswith(label) and path.endswith(it[len(label):]) for it in self.made["further"])
        laid = (*self.made["overlay"], *self.made["refused"])
        if not is_path(path) or path.startswith("external/") or is_named or any(it == path or it.startswith(path + "/") for it in laid):
            raise TooMuch

    def owner(self, path):
        """The package that a path lies in; nothing where there is none."""
        directory = os.path.dirname(path)
        while directory and not self.is_package(directory):
            directory = os.path.dirname(directory)
        return directory if self.is_package(directory) else None

    def is_package(self, directory):
        """Whether a directory has a BUILD file."""
        before = f"{directory}/" if directory else ""
        return before + "BUILD" in self.seen.files or before + "BUILD.bazel" in self.seen.files

    def read(self, paths):
        """Reads the BUILD files that changed, and makes their copies."""
        if not paths:
            return
        if any(has_content(path) and path != SCHEMA and path not in self.readings.kept for path in self.seen.files):
            raise TooMuch
        files = Lazy(self.readings.kept)
        workspace = Workspace.of_kept(self.root, files, self.seen, self.seen.files, self.made["workspace"])
        for path in paths:
            files.new[path] = self.files[path] = self.read_one(path, workspace)
        if self.is_deep:
            self.look_at_all(paths, workspace)
        else:
            self.copy(paths, Facts.of_kept(workspace, self.made["facts"]))
            self.laid = {path: self.copies.get(path) for path in paths}
        for path in paths:
            self.texts[path] = self.copies.get(path) or workspace.texts[path]
        if any(has_header(text) for text in self.texts.values() if text):
            raise TooMuch

    def copy(self, paths, facts):
        """Makes the copies of files."""
        count = sum(map(len, facts.stubs.values()))
        found = {path: copied(facts, self.files[path]) for path in paths}
        self.copies = {path: stubs.marked(facts, path, it[0]) for path, it in found.items() if it}
        if any(self.files[path].broken for path in paths):
            raise TooMuch
        # (a name that nothing asked for before)
        if sum(map(len, facts.stubs.values())) != count:
            raise TooMuch

    def look_at_all(self, paths, workspace):
        """Has the schema and the stubs made again, of what all files say: they have to be what they were, but for labels of other repositories."""
        made = self.made
        lazy, texts = workspace.files, workspace.texts
        files = {path: lazy[path] for path in sorted(lazy) if path in self.seen.files and not self.is_hidden(path)}
        facts = Facts(Workspace.of_kept(self.root, files, self.seen, self.seen.files, made["workspace"]))
        facts.workspace.texts, facts.tests_in = texts, made["tests_in"]
        if facts.for_copies() != made["for_copies"]:
            raise TooMuch
        self.copy(paths, facts)
        before = {path: self.laid_before(path) for path in made["overlay"]}
        overlay = stubs.Overlay(facts, made["faults"], {**{path: before[path] for path in made["copied"] if path not in paths}, **self.copies})
        changed = {path for path in before.keys() | overlay.files.keys() if before.get(path) != overlay.files.get(path)}
        self.laid = {path: overlay.files.get(path) for path in changed}
        others = {path: text for path, text in self.laid.items() if path not in paths}
        if facts.kept()["further"] != made["facts"]["further"] or any(not NAMED.fullmatch(path) or path in self.seen.files for path in others):
            raise TooMuch
        self.texts |= others
        unread = facts.unread()
        if {it.path for it in unread} - set(made["unread"]):
            raise TooMuch
        self.warnings = list(stubs.told(self.root, likely_root(self.seen.files), stubs.silences(facts), [it for it in unread if it.path in made["told_unread"]],
                                       facts.further_left, False))
        self.made = {**made, "facts": facts.kept(), "overlay": list(overlay.files), "refused": sorted(facts.refused),
                     "copied": sorted({*made["copied"], *self.copies} - {path for path in paths if path not in self.copies})}

    def laid_before(self, path):
        """The text of a file of the overlay that is kept."""
        try:
            with open_own(os.path.join(self.overlay, path), "rb") as file:
                return file.read()
        except OSError as error:
            raise TooMuch from error

    def is_hidden(self, path):
        """Whether this is a file `BUILD` beside a `BUILD.bazel`, which takes precedence."""
        return os.path.basename(path) == "BUILD" and f"{path}.bazel" in self.seen.files

    def read_one(self, path, workspace):
        """What a file says now. Where it isn't what it said before but for its lines, or its lines are told, all files are to be looked at again."""
        before = self.readings.kept.get(path)
        if not before or before[0][:5] != self.made["files"][path][:5] or self.is_hidden(path) or path.startswith("external/"):
            raise TooMuch
        try:
            text = workspace.texts[path] = content(self.root, path)
        except Unreadable as error:
            raise TooMuch from error
        found = read(path, text)
        entry = self.seen.files[path]
        is_late = entry_of(os.path.join(self.root, path), 0 if len(entry) > 5 else time.time_ns()) != entry
        if found.broken or is_late:
            raise TooMuch
        self.is_deep |= any(f"{path}:" in it for it in self.warnings) or said(found) != said(unpacked(path, before[1]))
        return found

    def read_now(self):
        """What the files say, for the next run."""
        now = {path: (self.seen.files[path], packed(file)) for path, file in self.files.items()}
        return {**self.readings.kept, **now}

    def bundle(self, data):
        """The bundle with these changes."""
        parts, edits = Parts(data), []
        if not self.are_walked(parts):
            raise TooMuch
        for path, text in [*self.texts.items(), *((it, None) for it in self.gone)]:
            start, end = parts.place(path)
            part = b"" if text is None else written(path, text)
            if start == end:
                if not NAMED.fullmatch(path) or not part:
                    raise TooMuch
                edits.append((start, start, part))
            elif data[start:end] != part:
                self.check_given(path, data[start:end], part)
                edits.append((start, end, part))
        for path in self.came:
            start, end = parts.place(path)
            if start != end:
                raise TooMuch
            edits.append((start, start, written(path, b"")))
        pieces, end = [], 0
        for start, after, part in sorted(edits):
            pieces += [data[end:start], part]
            end = after
        return b"".join([*pieces, data[end:]]) if edits else None

    def are_walked(self, parts):
        """Whether the folders behind links in which files have come are those of the bundle: links in circles are followed once."""
        linked = {os.path.dirname(path) for path in self.came} & self.seen.links
        return not linked or linked <= {os.path.dirname(path) for path in parts.paths()}

    @staticmethod
    def check_given(path, before, after):
        """The functions of `given` are in the overlay where a file loads them."""
        if (GIVEN.encode() in before) != (GIVEN.encode() in after):
            raise TooMuch

    # what is asked of bq

    def queries(self):
        """The queries over the patched bundle: for what leads to labels that the overlay gave a target, and for what is in the packages."""
        further = "|".join(map(escaped, self.made["further"]))
        without = f' - filter("^({further})$", //...)' if further else ""
        found = [f"deps(//...{without}, 1)"] if self.made["further"] or self.made["named"] else []
        for package in sorted(self.packages):
            found += [f'kind("^source file$", "//{package}:*")', f'kind(" rule$", "//{package}:*")']
            if package in self.made["tests_in"]:
                found += [f'kind("_test rule$", "//{package}:*")', f'attr(tags, "{MANUAL}", "//{package}:*")']
        return found

    def holds(self, blocks, faults):
        """Whether the answers say that the overlay is as it would be made anew. `faults` are the fault lines of the run."""
        made = self.made
        if len(blocks) != len(self.queries()):
            return False
        answers = iter(LINE.findall(b"".join(lines).decode("utf-8", "surrogateescape")) if status != 2 else [] for status, lines in blocks)
        made_up = {*made["named"], *made["further"]}
        led_to = set(next(answers)) if made_up else set()
        dangling = {it.decode("utf-8", "surrogateescape") for it in DANGLING.findall(faults)}
        if dangling | led_to & made_up != {*made["dangling"], *made["further"]}:
            return False
        return all(self.holds_in(package, answers, faults) for package in sorted(self.packages))

    def holds_in(self, package, answers, faults):
        """The same of a package: the files that seem to be targets of a macro, and the tests of a suite of all."""
        made, before = self.made, f"//{package}:"
        sources, rules = next(answers), next(answers)
        own = {it for it in made["further"] if it.startswith(before)}
        if own and re.search(rb"^%s[^\n]*: F(?!79)" % re.escape(before.encode()), faults, re.M):
            return False
        lines = [f"source file {it}\n" for it in sources] + [f"x rule {it}\n" for it in rules if it not in own]
        found = phantoms("".join(lines).encode("utf-8", "surrogateescape"), self.seen)
        if {it.decode("utf-8", "surrogateescape") for it in DANGLING.findall(found)} != {it for it in made["phantoms"] if it.startswith(before)} - own:
            return False
        if package in made["tests_in"]:
            tests, manual = next(answers), set(next(answers))
            return [it.partition(":")[2] for it in tests if it not in manual] == made["tests_in"][package]
        return True


class Parts:
    """Where the files of a bundle stand in it: they are in the order of their paths, so none has to be looked at but those on the way to one."""

    def __init__(self, data):
        self.data = data

    def next(self, at):
        """The place of the first file from here on; the end where there is none."""
        if at == 0 and self.data.startswith(b"=== "):
            return 0
        found = self.data.find(b"\n=== ", max(at - 1, 0))
        return len(self.data) if found < 0 else found + 1

    def path(self, start):
        """The path of the file at a place."""
        return self.data[start + 4:self.data.index(b"\n", start)]

    def place(self, path):
        """Where a file begins and ends; where it isn't there, twice the place where it would begin."""
        wanted, low, high = path.encode("utf-8", "surrogateescape"), 0, len(self.data)
        # (what begins before `low` comes before the file, and what comes next from `high` on doesn't)
        while low < high:
            middle = (low + high) // 2
            start = self.next(middle)
            if start >= high:
                high = middle
            elif self.path(start) < wanted:
                low = start + 1
            else:
                high = start
        start = self.next(high)
        is_there = start < len(self.data) and self.path(start) == wanted
        return start, self.next(start + 1) if is_there else start

    def paths(self):
        """The paths of all files."""
        return [it.decode("utf-8", "surrogateescape") for it in HEADER.findall(self.data)]


class Lazy(Mapping):
    """What files say, which is unpacked where it is asked for; `new` has what was read anew."""

    def __init__(self, kept):
        self.kept, self.new = kept, {}

    def __getitem__(self, path):
        if path not in self.new:
            self.new[path] = unpacked(path, self.kept[path][1])
        return self.new[path]

    def __contains__(self, path):
        return path in self.kept

    def __iter__(self):
        return iter(self.kept)

    def __len__(self):
        return len(self.kept)


def escaped(label):
    """A regular expression for a label."""
    if '"' in label:
        raise TooMuch
    return re.sub(r"([^\w/:@ -])", r"\\\1", label)


def said(file):
    """What a BUILD file says, without its lines, which count for messages alone."""
    calls = [{name: value for name, value in vars(it).items() if name != "line"} for it in file.calls]
    lined = [[(label, clauses) for label, _, clauses in file.loads], [it[:2] for it in file.uses], [(it[0], it[1], it[3]) for it in file.members],
             [it[:3] for it in file.member_calls], [what for _, what in file.faults], [it[:4] for it in file.decisions], [(it.names, it.is_def) for it in file.statements]]
    others = {name: value for name, value in vars(file).items()
              if name not in ("calls", "loads", "uses", "members", "member_calls", "faults", "decisions", "statements", "size", "is_odd")}
    return calls, lined, others
