"""The files that a run has read: takes a directory or a bundle, and overlays; gives their paths, texts, packages and the schema."""
import ast
import contextlib
import hashlib
import os
import re
import time
import warnings

from bzlq.hints import labels
from bzlq.hints.frames import stored
from bzlq.workspace.files import SCHEMA, content, files, parts

STANDARD = {
    "filegroup": {"srcs": "label_list", "data": "label_list", "output_group": "string"},
    "genrule": {"srcs": "label_list", "outs": "output_list", "cmd": "string", "cmd_bash": "string", "cmd_bat": "string", "cmd_ps": "string",
                "output_to_bindir": "bool", "executable": "bool", "local": "bool", "message": "string", "tools": "label_list"},
    "alias": {"actual": "label"},
    "test_suite": {"tests": "label_list"},
}
COMMON = {"name": "string", "visibility": "label_list", "tags": "string_list", "features": "string_list", "testonly": "bool", "deprecation": "string"}
BUILD_NAMES = ("BUILD", "BUILD.bazel")
MANDATORY = {("alias", "actual"), ("genrule", "outs")}


class TooLate(Exception):
    """The time for hints is over."""


class Seen:
    """What was looked at while a hint was made: files by their paths, questions about the names of files with their answers, and whether all
    names were. `is_sure` says whether the hint depends on nothing else, such as other faults, or how much time there was."""

    def __init__(self):
        self.texts, self.asked, self.is_all, self.is_sure = set(), {}, False, True

    def add(self, other):
        """Adds what was looked at elsewhere."""
        self.texts |= other.texts
        self.asked |= other.asked
        self.is_all |= other.is_all
        self.is_sure &= other.is_sure


class Sources:
    """The workspace. `places` are where its files are found for the reader of a line: a path before each path."""

    def __init__(self, paths, read, place):
        self.all_paths, self.read, self.place = set(paths), read, place
        self.all_packages = {directory_of(path) for path in self.all_paths if path.endswith(BUILD_NAMES) and path.rpartition("/")[2] in BUILD_NAMES}
        self.texts, self.trees, self.owned, self.above, self.bound, self.sums = {}, {}, None, None, {}, {}
        # the .bzl files that were evaluated, by their paths, each with what was looked at for it; what is frozen, by identity; and the values, so
        # that no other gets their identity
        self.modules, self.frozen, self.kept = {}, set(), []
        self.found, self.labels = {}, {}  # what was found once, with what was looked at for it; and the paths of labels
        self.seen, self.until = [Seen()], None  # `until` is when no more files are to be read, by the time of the process
        self.schema, self.mandatory = self.read_schema()

    @property
    def paths(self):
        """The paths of all files."""
        self.seen[-1].is_all = True
        return self.all_paths

    @property
    def packages(self):
        """The directories of all packages."""
        self.seen[-1].is_all = True
        return self.all_packages

    @contextlib.contextmanager
    def noting(self):
        """Notes what is looked at meanwhile."""
        self.seen.append(Seen())
        try:
            yield self.seen[-1]
        finally:
            inner = self.seen.pop()
            self.seen[-1].add(inner)

    def once(self, key, find):
        """What is found under a key, which is looked for once."""
        if key not in self.found:
            with self.noting() as seen:
                self.found[key] = find(), seen
        found, seen = self.found[key]
        self.seen[-1].add(seen)
        return found

    def is_unsure(self):
        """Notes that what is made now depends on more than files."""
        self.seen[-1].is_sure = False

    def asked(self, name, given, answer):
        """Notes an answer, and gives it."""
        self.seen[-1].asked[name, given] = answer
        return answer

    def again(self, name, given):
        """The answer to a question now."""
        found = getattr(self, name)(given)
        return sum_of(found) if name == "files_of" else found

    def sum_of(self, path):
        """A sum of the bytes of a file; nothing where it isn't there."""
        if path not in self.sums:
            self.sums[path] = hashlib.blake2b(self.read(path), digest_size=16).digest() if path in self.all_paths else None
        return self.sums[path]

    def sum_of_schema(self):
        """A sum of the schema."""
        return self.sum_of(SCHEMA)

    def sum_of_names(self):
        """A sum of all names of files."""
        if None not in self.sums:
            self.sums[None] = sum_of(sorted(self.all_paths))
        return self.sums[None]

    @staticmethod
    def of_directories(folders):
        """The files of a tree and of overlays, where the last one that has a path counts."""
        found = {}
        for folder in folders:
            for path in files(folder):
                found[path] = folder

        def place(path):
            folder = folders[0] if os.path.exists(os.path.join(folders[0], path)) else found.get(path, folders[0])
            return os.path.normpath(os.path.join(folder, path))

        return Sources(found, lambda path: content(found[path], path), place)

    @staticmethod
    def of_bundle(path, place=lambda name: name):
        """The files of a bundle."""
        found = parts(path)
        return Sources(found, lambda name: found[name], place)

    def text(self, path):
        """A file's text; a byte that is no ASCII stands as one character."""
        self.seen[-1].texts.add(path)
        if path not in self.texts:
            self.texts[path] = self.read(path).decode("latin-1") if path in self.all_paths else ""
        return self.texts[path]

    def tree(self, path):
        """Python's tree of a file; nothing where Python can't read it."""
        self.seen[-1].texts.add(path)
        if path not in self.trees and self.until is not None and time.process_time() > self.until:
            self.is_unsure()
            raise TooLate
        if path not in self.trees:
            try:
                with warnings.catch_warnings():
                    warnings.simplefilter("ignore")
                    self.trees[path] = ast.parse(self.text(path).replace("\x0c", " "))
            except (SyntaxError, ValueError, RecursionError, MemoryError):
                self.trees[path] = None
        return self.trees[path]

    def bound_at_top(self, path):
        """The names that the statements at the top of a file bind."""
        self.seen[-1].texts.add(path)
        if path not in self.bound:
            statements = [it for it in self.tree(path).body if isinstance(it, ast.Assign | ast.AugAssign | ast.FunctionDef)]
            self.bound[path] = {name for it in statements for name in stored(it)}
        return self.bound[path]

    def has_directory(self, directory):
        """Whether a file lies below a directory."""
        if self.above is None:
            self.above = directories_above(self.all_paths)
        return self.asked("has_directory", directory, directory in self.above)

    def has_file(self, path):
        """Whether there is a file of this path."""
        return self.asked("has_file", path, path in self.all_paths)

    def build_file(self, directory):
        """The path of a package's BUILD file; nothing where the directory is no package."""
        paths = [f"{directory}/{name}".lstrip("/") for name in ("BUILD.bazel", "BUILD")]
        return self.asked("build_file", directory, next((path for path in paths if path in self.all_paths), ""))

    def owner(self, path):
        """The package that owns a path: the nearest above it, in its repository."""
        return self.asked("owner", path, self.nearest_package(directory_of(path)))

    def nearest_package(self, directory):
        """A directory, or the nearest one above it in its repository, that is a package."""
        while directory and directory not in self.all_packages and not (directory.startswith("external/") and directory.count("/") == 1):
            directory = directory_of(directory)
        return directory

    def files_of(self, directory):
        """The files that a package owns, by their paths in it."""
        if self.owned is None:
            self.owned, owners = {}, {}
            for path in sorted(self.all_paths):
                inside = directory_of(path)
                if inside not in owners:
                    owners[inside] = self.nearest_package(inside)
                self.owned.setdefault(owners[inside], []).append(path)
        before = f"{directory}/" if directory else ""
        is_main = not directory.startswith("external/")
        found = [path[len(before):] for path in self.owned.get(directory, ()) if not (is_main and path.startswith("external/"))]
        self.asked("files_of", directory, sum_of(found))
        return found

    def file_of(self, label):
        """The path of a label's file; nothing where there is none."""
        if label not in self.labels:
            try:
                path = labels.path(label)
            except labels.BadLabel:
                path = ""
            self.labels[label] = path if path in self.all_paths else ""
        return self.asked("file_of", label, self.labels[label])

    def read_schema(self):
        """The rules with their attributes' types, and which attributes are mandatory."""
        if SCHEMA not in self.all_paths:
            return {rule: {**COMMON, **given} for rule, given in STANDARD.items()}, set(MANDATORY)
        found, mandatory, rule = {}, set(), ""
        for line in self.text(SCHEMA).splitlines():
            words = line.split()
            if words[:1] == ["rule"] and len(words) == 2:
                rule = words[1]
                found[rule] = dict(COMMON)
            elif words[:1] == ["attr"] and len(words) > 2 and rule:
                found[rule][words[1]] = words[2]
                if words[3:] == ["mandatory"]:
                    mandatory.add((rule, words[1]))
        return found, mandatory


def directory_of(path):
    """The directory of a path in a workspace. (Large ones have many paths, and os.path takes longer.)"""
    return path.rpartition("/")[0]


def directories_above(paths):
    """The directories that paths lie below."""
    found = set()
    for directory in set(map(directory_of, paths)):
        while directory and directory not in found:
            found.add(directory)
            directory = directory_of(directory)
    return found


def sum_of(names):
    """A sum of names."""
    return hashlib.blake2b("\0".join(names).encode("utf-8", "surrogateescape"), digest_size=16).digest()
