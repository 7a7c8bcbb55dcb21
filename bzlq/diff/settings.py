"""Which files say what other repositories there are, and how all is built: those that Bazel reads for it, and those that these name, as lock
files, lists of requirements, .bzl files and imported .bazelrc files; and which folders of the workspace they say to be other repositories. Takes the
tree of a revision, gives their paths."""
import contextlib
import os
import re

from bzlq.workspace.files import ROOT_FILES, Refused, read_file

ROOTS = (*ROOT_FILES, "MODULE.bazel.lock", "WORKSPACE.bzlmod", ".bazelrc", ".bazelversion")
# a text that may name a file: a label, a path, or what a .bazelrc imports, or of which it names an aspect
NAMED = re.compile(rb"""["'](?:@@?)?(?://|:)?([^"'\n]+)["']|^(?:try-)?import +(?:%workspace%/)?(\S+)|[=,](?:@@?)?//([^\s"',%]+)(?=%)""", re.M)
# files that belong to one that is named, and stand beside it
BESIDE = {
    "go.mod": ("go.sum",), "go.work": ("go.work.sum",), "Cargo.toml": ("Cargo.lock",),
    "package.json": ("pnpm-lock.yaml", "yarn.lock", "package-lock.json"),
}
READ = (".bzl", ".bazelrc", "MODULE.bazel")
FOLDER = "040000"
# calls that say where a repository lies, and by what name a module is known, each with what it is given
LOCAL = re.compile(rb"\b(?:new_)?local_(?:repository|path_override)\(((?:[^()#]|#[^\n]*)*)")
KNOWN = re.compile(rb"\bbazel_dep\(((?:[^()#]|#[^\n]*)*)")
GIVEN = re.compile(rb"""\b(name|module_name|repo_name|path)\s*=\s*["']([^"'\n]+)["']""")


class OnDisk:
    """The files of a folder as a tree: `paths` are those that are there, beside the roots of settings."""

    def __init__(self, root, paths):
        there = [*paths, *(it for it in ROOTS if os.path.isfile(os.path.join(root, it)))]
        self.root, self.entries = root, dict.fromkeys(there, ("",))
        self.reals = self.entries

    def texts(self, paths):
        """The bytes of those of these files that can be read."""
        found = {}
        for path in paths:
            with contextlib.suppress(OSError, Refused):
                found[path] = read_file(self.root, path)
        return found


def settings_of(tree):
    """These files of a tree, links not followed."""
    return {*(path for path in ROOTS if path in tree.entries), *(it for *_, it in namings(tree))}


def namings(tree):
    """What these files name: (the path of the one, a line, the path of the other)."""
    found, seen, pending = [], set(), [path for path in ROOTS if path in tree.entries]
    while pending:
        seen |= set(pending)
        here = [(path, *it) for path, text in tree.texts([it for it in pending if it in tree.reals]).items() for it in files_named(path, text, tree)]
        pending = sorted({it for *_, it in here if it.endswith(READ)} - seen)
        found += here
    return found


def local_repositories(texts, tree):
    """The folders of a tree that these texts of such files say to be other repositories, each with the names of that."""
    found, known = {}, {}
    given = lambda text: {key.decode(): os.fsdecode(value) for key, value in GIVEN.findall(text)}  # noqa: E731
    for it in (given(call) for text in texts for call in KNOWN.findall(text)):
        known.setdefault(it.get("name"), set()).add(it.get("repo_name", it.get("name")))
    for it in (given(call) for text in texts for call in LOCAL.findall(text)):
        folder, name = os.path.normpath(it.get("path", ".")), it.get("module_name", it.get("name"))
        if name and tree.entries.get(folder, ("",))[0] == FOLDER:
            found.setdefault(folder, set()).update({name, *known.get(name, ())})
    return found


def files_named(path, text, tree):
    """The lines of a text, each with a file that it names, or one that belongs to that."""
    folder = os.path.dirname(path)
    for found in NAMED.finditer(text):
        word, line = os.fsdecode(found[found.lastindex]).replace(":", "/").lstrip("/"), text.count(b"\n", 0, found.start()) + 1
        for place in {word, os.path.normpath(os.path.join(folder, word))}:
            if tree.entries.get(place, (FOLDER,))[0] != FOLDER:
                yield line, place
                directory, name = os.path.split(place)
                yield from ((line, it) for it in (os.path.join(directory, beside) for beside in BESIDE.get(name, ())) if it in tree.entries)
