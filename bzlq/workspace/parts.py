"""Parts of a workspace, each of which loads by itself as it does in the whole: takes the paths of the files and what gives their bytes, gives the
files of each part.

A part has whole packages, and sees of the others what these depend on: the .bzl files that they load, with the packages that those are in; the BUILD
files below, which bound globs and labels; the schema. Of a package that is there for these alone the BUILD file is `ELSEWHERE`, so it has no
targets, and says so in the facts. A package of a repository of its own has `MARK`, which says which part of how many it is.
"""
import functools
import hashlib
import posixpath
import re

from bzlq.hints import labels
from bzlq.workspace.bundle import written
from bzlq.workspace.files import SCHEMA, Refused, has_content
from bzlq.workspace.loads import loads_of
from bzlq.workspace.packages import Packages, repository_of

# what the BUILD file of a package says that is in another part, and the one that says which part this is
ELSEWHERE = "bzlq: in another part"
MARK = "bzlq: part {part} of {parts}, split {split}"
MARKED = re.compile(r'"bzlq: part (\d+) of (\d+), split ([0-9a-f]+)"')
REPOSITORY = "bzlq.part"
# what a file counts for beside its bytes
ENTRY = 100
# a word without which no file can name a default by a label
ATTRIBUTE = re.compile(rb"\battr\b")


class Parts:
    """`split` names this way of cutting this workspace. `text_of` gives the bytes of a file."""

    def __init__(self, paths, text_of, count):
        self.paths, self.text_of, self.names = set(paths), functools.lru_cache(maxsize=4096)(text_of), {}
        self.packages = Packages(self.paths)
        self.parts = self.cut(max(1, min(count, len(self.packages.files))))
        self.split = self.name()

    def cut(self, count):
        """The packages of each part, by their directories: a range of all packages in the order of their paths, each of about the same weight."""
        ordered = sorted(self.packages.files, key=lambda it: it.split("/"))
        weights = [self.weight(it) for it in ordered]
        left, found = sum(weights), [[]]
        goal = left / count
        weight = 0
        for at, directory in enumerate(ordered):
            open_parts = count - len(found)
            if found[-1] and open_parts and (weight + weights[at] / 2 > goal or len(ordered) - at <= open_parts):
                left -= weight
                goal, weight = left / open_parts, 0
                found.append([])
            found[-1].append(directory)
            weight += weights[at]
        return found

    def weight(self, directory):
        """What a package counts for: the bytes of its BUILD file, and its files."""
        return len(self.text_of(self.packages.files[directory])) + ENTRY * len(self.packages.own[directory])

    def name(self):
        """A sum over the parts and the files of the workspace."""
        found = hashlib.sha256(repr(self.parts).encode())
        for path in sorted(self.paths):
            found.update(path.encode("utf-8", "surrogateescape") + b"\0" + (self.text_of(path) + b"\0" if has_content(path) else b""))
        return found.hexdigest()[:12]

    def files(self, at):
        """The files of a part, with their bytes."""
        own = set(self.parts[at])
        found = {path: b"" for directory in own for path in self.packages.own[directory]}
        found |= {SCHEMA: self.text_of(SCHEMA)} if SCHEMA in self.paths else {}
        loaded = self.loaded(own)
        found |= loaded
        seen = {it for path in loaded for it in self.seen_by(path)} | set(self.around(own, loaded))
        found |= {self.packages.files[it]: fail(ELSEWHERE) for it in seen - own - {None}}
        found[f"external/{REPOSITORY}/BUILD"] = fail(MARK.format(part=at + 1, parts=len(self.parts), split=self.split))
        return found

    def loaded(self, own):
        """The BUILD files of packages and all that they load, directly or not, with their bytes."""
        found, pending = {}, [self.packages.files[it] for it in own]
        while pending:
            path = pending.pop()
            if path not in found:
                found[path] = self.text_of(path)
                pending += [it for it, _ in self.named(path) if it in self.paths]
        return found

    def named(self, path):
        """The paths that the loads of a file name, each with the directory of its package."""
        if path not in self.names:
            self.names[path] = list(self.read_loads(path))
        return self.names[path]

    def read_loads(self, path):
        """The same, from its text."""
        directory = self.packages.owner(posixpath.dirname(path))
        if directory is None:
            return
        root = repository_of(directory)
        for text in loads_of(self.text_of(path)):
            try:
                repository, package, name = labels.split(text, root.removeprefix("external/"), directory.removeprefix(root).removeprefix("/"))
            except labels.BadLabel:
                continue
            place = labels.directory(repository, package)
            if name.endswith(".bzl") and place in self.packages.files:
                yield f"{place}/{name}" if place else name, place

    def seen_by(self, path):
        """The packages that decide what the loads of a file are: its own, those that they name, and those that own what they name."""
        yield self.packages.owner(posixpath.dirname(path))
        for named, place in self.named(path):
            yield place
            yield self.packages.owner(posixpath.dirname(named))

    def around(self, own, loaded):
        """The packages that bound those of a part; also those of its .bzl files, where one may say a default by a label of its package."""
        files = [it for it in loaded if it.endswith(".bzl")]
        has_defaults = any(ATTRIBUTE.search(loaded[it]) for it in files)
        for directory in own | {self.packages.owner(posixpath.dirname(it)) for it in files} if has_defaults else own:
            yield from self.packages.bounds.get(directory, ())

    def bundle(self, at):
        """The bundle of a part."""
        return b"".join(written(path, text) for path, text in sorted(self.files(at).items()))


def fail(text):
    """A BUILD file that has a fault of this text, and no target."""
    return f'fail("{text}")\n'.encode()


def cut(paths, text_of, count):
    """The parts of a workspace."""
    if count < 1:
        raise Refused("a workspace has at least one part")
    found = Parts(paths, text_of, count)
    if not found.packages.files:
        raise Refused("there is no BUILD file, so there is nothing to cut")
    if any(it.startswith(f"external/{REPOSITORY}/") for it in found.paths):
        raise Refused(f"the workspace has files in external/{REPOSITORY}, which parts have for themselves")
    return found
