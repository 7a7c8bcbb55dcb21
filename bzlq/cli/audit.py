"""The lists of bzlq affected for the last commits of a branch, one after another, beside what Bazel says of them where it answers: a check of how
short the lists are, and whether they lack something. Takes the words of `bzlq affected --audit`; gives the status."""
import json
import shutil
import sys
from collections import Counter

from bzlq.bq import program_of
from bzlq.cli.process import write
from bzlq.diff.by_bazel import Bazel
from bzlq.diff.git import Git
from bzlq.diff.side import Side
from bzlq.workspace.files import Refused

# how many digits of a commit's name are written
DIGITS = 10


class Step:
    """What was found of a commit: its list, of how many targets, why it may lack some, and what Bazel has more or hasn't."""

    def __init__(self, commit, subject, found, all_on_fault, bazels):
        self.commit, self.subject, self.unsafe = commit, subject, found.unsafe()
        self.is_all = bool(self.unsafe) and all_on_fault
        self.labels, self.count = found.labels(self.is_all), len(found.labels(True))
        self.missing = self.more = None
        if bazels is not None:
            wanted = {label for label, rule in bazels.items() if found.kind.search(f"{rule} rule" if rule else "source file")}
            self.missing, self.more = sorted(wanted - {*self.labels}), sorted({*self.labels} - wanted)

    def is_lacking(self):
        """Whether Bazel has targets that a list lacks which was said to be whole."""
        return bool(self.missing) and not (self.unsafe and not self.is_all)

    def lines(self):
        """The lines to write: the commit, and below it its list."""
        may = "" if not self.unsafe else ", all, since targets may be missing" if self.is_all else ", and targets may be missing"
        beside = "" if self.missing is None else f", beside Bazel {len(self.missing)} missing and {len(self.more)} more"
        yield f"{self.commit[:DIGITS]} {len(self.labels)} of {self.count}{may}{beside}: {self.subject}"
        yield from (f"  {it}" for it in self.labels)
        yield from (f"  missing, by Bazel: {it}" for it in self.missing or ())

    def data(self):
        """The same as data."""
        return {"commit": self.commit, "subject": self.subject, "targets": self.labels, "of": self.count, "unsafe": self.unsafe, "missing": self.missing, "more": self.more}


def steps(words, room, affected):
    """The commits, the oldest first. `affected` gives what a change from one side to another concerns."""
    git, program = Git(words.tree, room), program_of(words.program)
    commits = git.commits(words.head or "HEAD", words.audit + 1)
    if len(commits) < 2:
        raise Refused("there is no commit with one before it")
    bazel, before = Bazel(words.bazel, git, room) if words.bazel else None, None
    try:
        for at, (commit, subject) in enumerate(commits):
            side = Side(git.tree(commit), f"{room}/{at}", program, words.overlay)
            shutil.rmtree(f"{room}/{at}")
            bazels = bazel.concerned(commit, side.tree) if bazel else None
            if before:
                yield Step(commit, subject, affected(git, before, side), words.all_on_fault, bazels)
            before = side
    finally:
        if bazel:
            bazel.stop()


def audit(words, name, room, affected):
    """Writes the lists, and what they come to."""
    if words.base or words.why or words.owners:
        raise Refused("--audit goes with --head, and neither with --base nor with --why or --owners")
    figures = Counter()
    for it in steps(words, room, affected):
        write([json.dumps(it.data(), separators=(",", ":"))] if words.json else it.lines(), sys.stdout)
        write([f"{name}: {it.commit[:DIGITS]}: {reason}" for reason in it.unsafe[:1]], sys.stderr)
        # (numbers: an empty counter takes what it is given as it is)
        figures.update(commits=1, listed=len(it.labels), of=it.count, unsafe=int(bool(it.unsafe)), bazel=int(it.missing is not None), missing=len(it.missing or ()),
                       more=len(it.more or ()), lacking=int(it.is_lacking()))
    share = f" ({100 * figures['listed'] / figures['of']:.1f} %)" if figures["of"] else ""
    write([f"{name}: {figures['commits']} commit{'s' * (figures['commits'] != 1)}: {figures['listed']} of {figures['of']} targets listed{share}; "
           f"{figures['unsafe']} where targets may be missing"], sys.stderr)
    if words.bazel:
        write([f"{name}: Bazel has answered for {figures['bazel']} of them: {figures['missing']} missing, {figures['more']} more; "
               f"{figures['lacking']} list{'s' * (figures['lacking'] != 1)} said to be whole lack{'s' * (figures['lacking'] == 1)} one"], sys.stderr)
    return 1 if figures["lacking"] else 3 if figures["unsafe"] and not words.all_on_fault else 0
