"""What Bazel says of a change: takes the answers of its own query `//...:*` in XML for two revisions, gives the targets that differ and what depends
on them. A target differs where Bazel's text of it does, but for places; a source file where its contents do."""
import os
import shlex
import subprocess
import xml.etree.ElementTree as ElementTree
from collections import defaultdict, namedtuple

# what an attribute says of places alone
PLACES = ("generator_location",)
QUERY = ("query", "--noshow_progress", "--output=xml")
ALL = "//...:*"

# `rule` is its class, empty of a file and nothing of a generated one; `said` what Bazel says of it; `inputs` the labels that it depends on
Target = namedtuple("Target", "rule said inputs")


def targets_of(text, contents):
    """The targets of an answer, by their labels; `contents` gives what the file of a path holds."""
    # (Python reads XML of version 1.0 alone)
    return {it.get("name"): target(it, contents) for it in ElementTree.fromstring(text.partition(b"?>")[2])}


def target(element, contents):
    """What a target is, what it says, and what it depends on."""
    if element.tag == "source-file":
        return Target("", contents(element.get("name").lstrip("/").replace(":", "/", 1).lstrip("/")), ())
    said = [ElementTree.tostring(it).strip() for it in element if it.get("name") not in PLACES]
    inputs = [it.get("name") for it in element if it.tag == "rule-input"] + [element.get("generating-rule")]
    return Target(element.get("class"), said, tuple(it for it in inputs if it))


def concerned(before, now):
    """The rules and source files that a change concerns. (What a rule writes isn't asked for: bq knows fewer of Bazel's implicit outputs.)"""
    users, found = defaultdict(list), set()
    for label, it in now.items():
        for other in it.inputs:
            users[other].append(label)
    pending = [label for label, it in now.items() if before.get(label) != it or any(other in before and other not in now for other in it.inputs)]
    while pending:
        label = pending.pop()
        if label not in found:
            found.add(label)
            pending += users[label]
    return {label for label in found if now[label].rule is not None}


class Bazel:
    """A command that runs Bazel, in a folder that has the files of one revision after another: its server sees what changed."""

    def __init__(self, command, git, room):
        self.command, self.git, self.room = shlex.split(command), git, room
        self.tree, self.index, self.before, self.now = f"{room}/tree", f"{room}/index-of-tree", None, None
        os.makedirs(self.tree)

    def stop(self):
        """Ends the server."""
        subprocess.run([*self.command, "shutdown"], cwd=os.path.join(self.tree, self.git.prefix), capture_output=True, check=False)

    def concerned(self, commit, tree):
        """The targets that a commit concerns, each with its class; nothing where Bazel doesn't answer, for it or for the one before."""
        self.before, self.now = self.now, self.targets(commit, tree)
        if self.before is None or self.now is None:
            return None
        return {label: self.now[label].rule for label in concerned(self.before, self.now)}

    def targets(self, commit, tree):
        """The targets of a commit."""
        self.git.run("-C", self.tree, "read-tree", "-u", "--reset", commit, GIT_INDEX_FILE=self.index, GIT_WORK_TREE=self.tree, GIT_DIR=self.git.directory())
        ended = subprocess.run([*self.command, *QUERY, ALL], cwd=os.path.join(self.tree, self.git.prefix), capture_output=True, check=False)
        try:
            return targets_of(ended.stdout, tree.identity) if ended.returncode == 0 else None
        except ElementTree.ParseError:
            return None
