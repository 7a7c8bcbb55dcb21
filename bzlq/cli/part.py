"""The part of a workspace that the faults of some BUILD files depend on: takes the root and the files, gives the files of a bundle.

These are the BUILD files of the packages, with the names of the files that the packages own; those of the packages that they name by labels; and the
.bzl files that all of these load. A package below one of them is there without its text, since it bounds what a glob finds.
"""
import os
import re

from bzlq.workspace.files import ROOT_FILES, SCHEMA, Refused, ignored, is_path, own_name_in, read_file, unreadable
from bzlq.workspace.loads import loads_of

LABEL = re.compile(rb"""["'](?:@|@@)?//([^"':\n]*)(?::[^"'\n]*)?["']""")
NAMES = ("BUILD.bazel", "BUILD")


class Part:
    """`files` are the bytes of each path, `packages` the directories of the packages whose text is there."""

    def __init__(self, root):
        self.root, self.files, self.packages, self.seen = root, {}, set(), set()
        self.without = ignored(root)
        for name in (SCHEMA, ".bazelignore", *ROOT_FILES):
            if os.path.isfile(os.path.join(root, name)):
                self.files[name] = self.text(name)
        self.own = b""
        for name in ROOT_FILES:
            self.own = self.own or own_name_in(self.files.get(name, b""))

    def text(self, path):
        """The bytes of a file, or what stands for them where it can't be read."""
        try:
            return read_file(self.root, path)
        except OSError as error:
            return unreadable(path, error.strerror)

    def build_file(self, directory):
        """The path of a package's BUILD file; nothing where the directory is no package."""
        paths = (os.path.join(directory, name) for name in NAMES)
        return next((it for it in paths if os.path.isfile(os.path.join(self.root, it))), "") if directory not in self.without else ""

    def package_of(self, path):
        """The directory of the package that a path is in."""
        while path and not self.build_file(path):
            path = os.path.dirname(path)
        return path

    def add(self, directory):
        """Adds a package with all that its text loads; gives the directories of the packages that this names."""
        if directory in self.packages or not (build := self.build_file(directory)):
            return set()
        self.packages.add(directory)
        self.add_names(directory)
        return self.add_text(build)

    def add_names(self, directory):
        """Adds the names of the files that a package owns, and of the BUILD files of those below it."""
        pending, around = [directory], set()
        while pending:
            at = pending.pop()
            place = os.path.join(self.root, at)
            real = os.path.realpath(place)
            if real in around or at in self.without:
                continue
            around.add(real)
            with os.scandir(place) as entries:
                for entry in entries:
                    path = os.path.join(at, entry.name)
                    if not is_path(path) or entry.name == ".git" or not at and entry.name.startswith("bazel-") and entry.is_symlink():
                        continue
                    if not entry.is_dir():
                        self.files.setdefault(path, b"")
                    elif build := self.build_file(path):
                        self.files.setdefault(build, b"")
                    else:
                        pending.append(path)

    def add_text(self, path):
        """Adds the text of a file, and of those that it loads; gives the directories of the packages that all these name."""
        named, pending = set(), [path]
        while pending:
            path = pending.pop()
            if path in self.seen:
                continue
            self.seen.add(path)
            text = self.files[path] = self.text(path)
            named |= {it.decode("utf-8", "replace") for it in LABEL.findall(text)}
            loaded = [self.path_of(it, path) for it in loads_of(text)]
            pending += [it for it in loaded if it and os.path.isfile(os.path.join(self.root, it))]
            for it in filter(None, loaded):
                owner = self.package_of(os.path.dirname(it))
                if build := self.build_file(owner):
                    self.files.setdefault(build, b"")
                    if it not in pending and it not in self.seen:
                        self.add_names(owner)  # (a hint says which file may be meant)
        return {self.package_of(it) if self.build_file(it) else it for it in named if is_path(it) or not it}

    def path_of(self, label, path):
        """The path of a file that is loaded; nothing for a label that is none, and for a file of another repository that isn't there."""
        repository, slashes, rest = label.partition("//")
        package, colon, name = rest.partition(":")
        name = name if colon else os.path.basename(package)
        other = repository.lstrip("@")
        before = "" if not other or other.encode() == self.own else f"external/{other}"
        if not slashes:
            before, package, name, other = self.package_of(os.path.dirname(path)), "", label.removeprefix(":"), ""
        # (a name that is no path, as one with `..`, would lead out of the workspace)
        found = "/".join(it for it in (before, package, name) if it)
        return found if is_path(found) and (not other or os.path.isfile(os.path.join(self.root, found))) else ""


def part_of(root, paths):
    """The part for these BUILD files: their packages, and those that they name."""
    found = Part(root)
    for path in paths:
        if not os.path.isfile(os.path.join(root, path)):
            raise Refused(f"{path}: no such file in the workspace")
    named = set().union(*(found.add(os.path.dirname(path)) for path in paths))
    for directory in sorted(named):
        found.add(directory)
    return found
