"""Lists the targets that a change concerns: bzlq affected [--base REV] [--head REV] [--tests | --kind PATTERN] [--why | --owners | --json] [BASE [HEAD]] [TREE]

    $ bzlq affected --base HEAD~1 --tests
    //app:app_test
    affected: 2 changed targets, 0 deleted, 1 affected

Compares the facts of two revisions of a git repository, which are read without a checkout: BASE (the last commit that HEAD has in common
with origin/HEAD) and HEAD (the work tree with what isn't committed, without what .gitignore names). TREE is the workspace's root; the default
is the one that you are in. If it has no rules.schema, bzlq stubs makes an overlay for each side, as for bzlq.

A target has changed if its kind, its attributes or its direct dependencies have, if it is a source file with another content, if it is new,
or if it used one that was deleted. So a comment in a .bzl file changes nothing, and an edit of a macro only what it now declares differently.
The list has each changed target, and all that depend on one, directly or not. What an overlay leaves out, such as dicts and the conditions
of `select`, is compared by its text. After a change of MODULE.bazel, WORKSPACE or .bazelrc, or of a file that these name, such as a lock
file, all targets that depend on another repository are listed; after one in the folder of a local repository, those that depend on that one.
Only the cache is written to, $XDG_CACHE_HOME/bzlq (~/.cache/bzlq).

With --audit N it writes the list of each of the last N commits of HEAD, the oldest first, below a line with how many of all targets that are,
and what all lists come to: so you see on your own history what you would have run. --bazel COMMAND (such as bazel) also runs `bazel query` on
the files of each commit, in a folder of the cache, and lists the targets that follow from its answers and that a list lacks.

Status: 0 if the list is complete, but for other targets that may have edges that aren't known, which a line counts; 3 if a file of either side
has a fault, or calls declare nothing over the overlay: then targets may be missing, so run everything (--all-on-fault lists all, and ends
with 0); 2 if nothing can be answered; 4, 5 as for bq. A label that names no target (F79) is a fault too, unless --allow-dangling is given: where
its package has no other fault, it hides no target.
"""
import argparse
import json
import os
import sys

from bzlq.bq import program_of
from bzlq.cache.folder import cache, room
from bzlq.cli.audit import audit
from bzlq.cli.process import ended, write
from bzlq.cli.request import SHOWN, pattern
from bzlq.diff.comparison import compare, unlisted, users_in
from bzlq.diff.git import WORK_TREE, Git
from bzlq.diff.owners import PLACES, Owners
from bzlq.diff.side import Side
from bzlq.facts.graph import edges, path_to, reached
from bzlq.overlay.extra_targets import NAMED
from bzlq.workspace.files import Refused
from bzlq.workspace.root import NoRoot, root_of


# how many targets that were deleted are named without --json
MOST = 20
# the kinds of tests
TESTS = r"_tests? rule$"
# what is given to tests alone
OF_TESTS = ("size", "timeout", "shard_count", "flaky", "test_class")


class Affected:
    """What a change concerns: each target with the one before it on a shortest way from a changed one."""

    def __init__(self, words, git, base, head):
        self.git, self.base, self.head = git, base, head
        self.kind, self.allows_dangling = pattern(TESTS if words.tests else words.kind), words.allow_dangling
        # with --all-on-fault too, what may be a test is listed rather than told to be missing
        self.has_made = words.tests or words.all_on_fault
        if not self.head.packages:
            raise Refused(f"there is no BUILD file in {words.tree}" + (f" of {words.head}" if words.head else ""))
        self.change = compare(self.base, self.head)
        users = users_in(self.head) if self.change.targets else {}
        self.before = reached(sorted(self.change.targets), lambda label: users[label])

    def unsafe(self):
        """Why targets may be missing."""
        found = []
        for name, side in (("base", self.base), ("head", self.head)):
            faults = [it for it in side.facts.faults if it.number != "F79" or not self.allows_dangling]
            found += [f"{name}: {it}" for it in [*faults, *side.warnings]]
        targets = [self.head.facts.targets[label] for label in self.before]
        if odd := [it for it in targets if self.may_be_test(it) and not self.matches(it)]:
            kinds = ", ".join(sorted({it.kind.removesuffix(" rule") for it in odd}))
            one, is_one = ("1 target", "may be a test, and isn't listed: --tests lists it"), len(odd) == 1
            count, what = one if is_one else (f"{len(odd)} targets", "may be tests, and aren't listed: --tests lists them")
            found.append(f"{count} of a kind that was made up ({kinds}) {what}")
        found += self.change.left_out
        found += sorted({text.partition(": ")[2] for it in targets for text in it.lost if text.startswith("targets: ")})
        return found

    def may_be_test(self, target):
        """Whether tests are looked for, and a target may be one, since its kind was made up."""
        # (what labels alone name has no kind of its own: its name tells)
        what = target.label if NAMED in target.lost else target.kind
        is_like_one = "test" in what.rpartition(":")[2] or any(name in target.attributes for name in OF_TESTS)
        return "test" in self.kind.pattern and is_like_one and any(text.startswith(("kind: ", "targets: ")) for text in target.lost)

    def unlikely(self, is_all):
        """The targets that aren't listed where tests are looked for, and whose kind was made up, so that a macro may declare a test all the same."""
        targets = self.all() if is_all else {label: self.head.facts.targets[label] for label in self.before}
        made = (label for label, it in sorted(targets.items()) if not label.startswith("@") and any(text.startswith(("kind: ", "targets: ")) for text in it.lost))
        return [label for label in made if "test" in self.kind.pattern and not self.may_be_test(targets[label]) and not self.matches(targets[label])]

    def matches(self, target):
        """Whether a target is of the kinds that are asked for."""
        return bool(self.kind.search(target.kind)) or self.has_made and self.may_be_test(target)

    def lost(self):
        """The targets of the base in packages that have none now, though their BUILD file is there."""
        packages = {it.file for it in self.head.facts.targets.values() if it.line}
        return {label: it for label, it in self.base.facts.targets.items() if it.line and it.file not in packages and it.file in self.head.packages}

    def all(self):
        """All targets of the head, and those that are lost."""
        return {**self.lost(), **self.head.facts.targets}

    def deleted(self):
        """The targets that were deleted, of the kinds that are asked for."""
        lost, targets = self.lost(), self.base.facts.targets
        return [label for label in self.change.deleted if label not in lost and self.matches(targets[label])]

    def labels(self, is_all):
        """The targets that are listed: all of them, or those that the change concerns."""
        targets = self.all() if is_all else self.head.facts.targets
        return sorted(label for label in (targets if is_all else self.before) if self.matches(targets[label]))

    def owners(self, labels, revision):
        """Each owner with what he owns of these targets, by the file that declares it, or the file itself; `-` owns what nobody does."""
        by = Owners.of(self.git, revision)
        if not by:
            raise Refused(f"the repository has no {', '.join(PLACES[:-1])} or {PLACES[-1]}")
        if by.sections:
            self.change.notes.append(f"owners may be missing: {by.sections} section{'s' * (by.sections != 1)} of GitLab in CODEOWNERS, which has owners of its own")
        targets = self.all()
        return sorted((owner, label) for label in labels for owner in by.of_path(targets[label].file) or ["-"])

    def why(self, label, path):
        """The lines that say why a target is listed."""
        if label not in self.before:
            return ["all are listed, since targets may be missing"]
        way = path_to(label, self.before)[::-1]
        return [*edges(way, self.head.facts.targets, path), f"{way[-1]}: {self.change.targets[way[-1]]}"]

    def data(self, label):
        """What is said of a target with --json."""
        if label not in self.before:
            return {"target": label, "distance": None, "because": None}
        way = path_to(label, self.before)
        return {"target": label, "distance": len(way) - 1, "because": {"target": way[0], "change": self.change.targets[way[0]]}}


def lines_of(found, labels, words):
    """The lines of the list, in the form that the words ask for."""
    if words.owners:
        yield from (" ".join(it) for it in found.owners(labels, words.head))
        return
    for label in labels:
        if words.json:
            yield json.dumps(found.data(label), separators=(",", ":"))
            continue
        yield label
        if words.why:
            yield from (f"  {it}" for it in found.why(label, lambda path: os.path.relpath(os.path.join(words.tree, path))))
    for label in found.deleted() if words.json else ():
        yield json.dumps({"deleted": label, "kind": found.base.facts.targets[label].kind}, separators=(",", ":"))


def told(found, labels, unsafe, is_all):
    """What is said beside the list."""
    change = found.change
    count = len(change.targets)
    yield f"{count} changed target{'s' * (count != 1)}, {len(change.deleted)} deleted, {len(labels)} {'listed' if is_all else 'affected'}"
    shown = found.deleted()
    yield from (f"deleted: {label}" for label in shown[:MOST])
    yield from [f"and {len(shown) - MOST} more that are deleted (--json lists them)"] if shown[MOST:] else []
    yield from change.notes
    yield from (f"in no target: {path}" for path in change.others)
    if not is_all and (odd := unlisted(change, found.head, found.before)):
        names = ", ".join(odd[:SHOWN]) + (", .." if odd[SHOWN:] else "")
        yield f"{len(odd)} of the other targets may have edges that aren't known, so that more may be concerned: {names}"
    if odd := found.unlikely(is_all):
        names, is_one = ", ".join(odd[:SHOWN]) + (", .." if odd[SHOWN:] else ""), len(odd) == 1
        how = ("1 target", "isn't", "it", "a test", "its macro declares") if is_one else (f"{len(odd)} targets", "aren't", "they", "tests", "their macros declare")
        yield f"{how[0]} of a kind that was made up {how[1]} listed: {how[2]} would be {how[3]} only if {how[4]} one, which neither a name nor an attribute says: {names}"
    for it in unsafe[:SHOWN]:
        yield f"targets may be missing{', so all are listed' if is_all else ''}: {it}"
    if unsafe[SHOWN:]:
        yield f"and {len(unsafe) - SHOWN} more such lines"


def compared(words, folder):
    """What the change between the two revisions concerns."""
    git, program = Git(words.tree, folder), program_of(words.program)
    base = git.commit(words.base) if words.base else git.base()
    trees = git.tree(base), git.tree(words.head)
    return Affected(words, git, *(Side(it, f"{folder}/{name}", program, words.overlay) for it, name in zip(trees, ("base", "head"))))


def affected(words, name):
    """Writes the list, and what there is to say of it; gives the status."""
    sort_words(words)
    pattern(words.kind)  # (a wrong one is refused before anything is read)
    for folder in words.overlay:
        if not os.path.isdir(folder):
            raise Refused(f"there is no directory {folder}")
    with room(cache(), "affected-") as folder:
        if words.audit:
            return audit(words, name, folder, lambda *sides: Affected(words, *sides))
        found = compared(words, folder)
        unsafe = found.unsafe()
        is_all = bool(unsafe) and words.all_on_fault
        labels = found.labels(is_all)
        write(lines_of(found, labels, words), sys.stdout)
        write([f"{name}: {it}" for it in told(found, labels, unsafe, is_all)], sys.stderr)
        return 3 if unsafe and not is_all else 0


def sort_words(words):
    """Has each word be the workspace's root, if it is a directory, else a revision: the base, then the head."""
    revisions = []
    for word in words.words:
        if words.tree == "" and os.path.isdir(word):
            words.tree = word
        else:
            revisions.append(word)
    if revisions and words.base:
        raise Refused(f"there is no directory {revisions[0]}")
    if len(revisions) > 2 or len(revisions) == 2 and words.head != WORK_TREE:
        raise Refused("the words are TREE, and at most two revisions, BASE and HEAD")
    if revisions:
        words.base, words.head = revisions[0], revisions[1] if len(revisions) == 2 else words.head
    words.tree = words.tree or root()


def root():
    """The root of the workspace that one stands in; where there is none, the folder itself."""
    try:
        return root_of(os.getcwd())
    except NoRoot:
        return "."


def count(word):
    """A number of commits."""
    if not word.isascii() or not word.isdecimal() or not 1 <= int(word[:9]) <= 100_000:
        raise argparse.ArgumentTypeError(f"it takes a number of 1 to 100,000, and not '{word}'")
    return int(word)


def main():
    """Reads the words of a call, and runs it."""
    parser = argparse.ArgumentParser(description=__doc__, formatter_class=argparse.RawDescriptionHelpFormatter)
    parser.add_argument("words", metavar="TREE|BASE|HEAD", nargs="*", help="the workspace's root, and the revisions to compare")
    parser.add_argument("--base", default="", metavar="REV", help="the revision to compare with")
    parser.add_argument("--head", default=WORK_TREE, metavar="REV", help="the revision with the change")
    parser.add_argument("--overlay", action="append", default=[], metavar="DIR", help="lay this folder over both sides, instead of the overlay of bzlq stubs")
    parser.add_argument("--kind", default="", metavar="PATTERN", help="list only the kinds that match it, such as '_test rule'")
    parser.add_argument("--tests", action="store_true", help="list only tests, and what may be tests")
    how = parser.add_mutually_exclusive_group()
    how.add_argument("--why", action="store_true", help="below each label a shortest path to a changed target")
    how.add_argument("--owners", action="store_true", help="each owner, by CODEOWNERS, before each label that is his")
    how.add_argument("--json", action="store_true", help="a JSON object for each target")
    parser.add_argument("--all-on-fault", action="store_true", help="list all targets where some may be missing")
    parser.add_argument("--allow-dangling", action="store_true", help="ignore labels that name no target (F79)")
    parser.add_argument("--audit", type=count, default=0, metavar="N", help="the lists of the last N commits, and what they come to")
    parser.add_argument("--bazel", default="", metavar="COMMAND", help="with --audit: run the query of this Bazel for these commits, such as bazel")
    parser.add_argument("--program", default="", metavar="PROGRAM", help="the program bq (else $BZLQ_BQ, else the one of this repository)")
    words = parser.parse_args()
    words.tree = ""
    return ended(lambda name: affected(words, name))
