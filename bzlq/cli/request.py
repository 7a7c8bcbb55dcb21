"""What the scripts over facts share: the words that say which workspace is asked, its facts

A script makes its words by `parser_of`, and has `run` call a function that takes an `Asked` and gives the lines to write. A directory or
bundle is read as it is; without one it is the workspace that one stands in, with the overlay that bzlq keeps of it.
"""
import argparse
import os
import re
import sys

from bzlq.bq import facts, program_of
from bzlq.cache.store import Kept
from bzlq.cli import relative_labels as relative
from bzlq.cli.process import ended, write
from bzlq.hints import labels
from bzlq.hints.suggestions import did_you_mean
from bzlq.overlay.approximations import Place
from bzlq.overlay.assembly import MAX_STEPS, run_options
from bzlq.workspace.files import Refused
from bzlq.workspace.root import folder_of, root_of

# how many faults are told
SHOWN = 3


def parser_of(about):
    """A parser that takes the words for a workspace."""
    parser = argparse.ArgumentParser(description=about, formatter_class=argparse.RawDescriptionHelpFormatter)
    where = parser.add_mutually_exclusive_group()
    where.add_argument("--dir", metavar="DIR", help="the workspace, read as it is (else the one that you are in, as bzlq reads it)")
    where.add_argument("--bundle", metavar="FILE", help="the file of a bundle that holds the workspace")
    parser.add_argument("--large", action="store_true", help="with --dir or --bundle: allow more than 65,536 files and 16,384 modules (else that is found out)")
    parser.add_argument("--program", default="", metavar="PROGRAM", help="the program bq (else $BZLQ_BQ, else the one of this repository)")
    return parser


class Asked:
    """A workspace, and what was found out about it."""

    def __init__(self, words, is_of_targets):
        self.is_of_targets = is_of_targets
        self.words, self.program = words, program_of(words.program)
        self.root, self.folder, self.bundle, self.overlay = words.dir, "", words.bundle, ""
        self.faults, self.warnings, self.lost, self.of = [], [], None, "the workspace"
        self.unknown, self.notes, self.status = [], [], 0  # what the answer leaves open, what else is said of it, and the status that a script gives of its own
        if not words.dir and not words.bundle:
            self.root = root_of(os.getcwd())
            self.folder = folder_of(self.root)
            self.kept = Kept(self.root, self.program)
            self.bundle, self.overlay = self.kept.path("bundle"), self.kept.overlay

    def facts(self, query=""):
        """The facts behind a query, or behind all of the workspace."""
        self.of = "this answer" if query else "the workspace"
        if self.words.dir or self.words.bundle:
            found = facts(self.words.dir or self.words.bundle, query, program=self.program, large=self.words.large)
            options = ["--large"] * self.words.large
            self.lost = Place(self.program, options, self.words.dir or self.words.bundle).lost(query, found.targets.values())
        else:
            bundle, self.warnings = self.kept.open()
            with bundle:
                is_large = self.kept.is_large or self.words.large
                found = facts(bundle, query, program=self.program, max_steps=MAX_STEPS, large=is_large)
                self.lost = Place(self.program, run_options(is_large), bundle).lost(query, found.targets.values())
        self.faults, self.lost = found.faults, self.lost if self.is_of_targets else None
        return found

    def sources(self):
        """The texts of the workspace's files."""
        from bzlq.hints.sources import Sources
        return Sources.of_bundle(self.bundle) if self.bundle else Sources.of_directories([self.root])

    def namings(self):
        """What WORKSPACE, MODULE.bazel and .bazelrc name, and the files that these load: (the path of the one, a line, the path of the other)."""
        if not self.root:
            self.unknown.append("what WORKSPACE and MODULE.bazel load, which a bundle doesn't hold")
            return []
        from bzlq.diff.settings import OnDisk, namings
        return namings(OnDisk(self.root, self.sources().paths))

    def query(self, text):
        """A query with labels in full."""
        return relative.absolute(text, self.root, self.folder) if self.root else text

    def label(self, word):
        """The label in full that a word stands for."""
        text = relative.label(word, self.root, self.folder) if self.root and not word.startswith(("//", "@")) else word
        try:
            return labels.joined(*labels.split(text))
        except labels.BadLabel as error:
            raise Refused(f"'{word}' is no label: {error}") from None

    def target(self, word, targets):
        """The target that a word stands for."""
        label = self.label(word)
        if label not in targets:
            package = label.partition(":")[0]
            inside = [it for it in targets if it.partition(":")[0] == package]
            why = did_you_mean(label, inside) if inside else f": there is no package {package}"
            raise Refused(f"there is no target {label}{why}")
        return targets[label]

    def path(self, path):
        """A file's path from the folder that one stands in; in full for one that is only in the overlay."""
        if not self.root:
            return path
        place = os.path.join(self.root, path)
        return os.path.relpath(place) if not self.overlay or os.path.lexists(place) else os.path.join(self.overlay, path)

    def told(self):
        """What there is to say of the workspace, beside the answer."""
        more = len(self.faults) - SHOWN
        said = [f"targets may be missing: {it}" for it in [*self.faults[:SHOWN], *self.warnings]] + ([f"and {more} faults more"] if more > 0 else [])
        open_ones = [f"not known: {it}" for it in self.unknown[:SHOWN]] + ([f"and {len(self.unknown) - SHOWN} more aren't known"] if self.unknown[SHOWN:] else [])
        return said + open_ones + self.notes + list(self.lost.lines(self.of) if self.lost else [])

    def may_lack(self):
        """Whether the answer may lack something."""
        return bool(self.faults or self.warnings or self.unknown or self.lost and self.lost.may_lack())


def pattern(text):
    """A regular expression for kinds."""
    try:
        return re.compile(text)
    except (re.error, RecursionError, OverflowError) as error:
        raise Refused(f"'{text}' is no regular expression: {error}") from None


def run(main, words, is_of_targets=True):
    """Runs a script, which is a function of what is asked, and writes the lines that it gives; gives the status. `is_of_targets` says whether what
    was made up of targets concerns its answer."""
    def script(name):
        asked = Asked(words, is_of_targets)
        write(main(asked), sys.stdout)
        write([f"{name}: {line}" for line in asked.told()], sys.stderr)
        return asked.status or (3 if asked.may_lack() else 0)

    return ended(script)
