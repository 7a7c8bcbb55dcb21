"""Packages that Bazel's query doesn't have though their BUILD files are there: by `--deleted_packages` in a .bazelrc, and by `ignore_directories` in
REPO.bazel. Takes the root, gives which packages these are. (bq knows .bazelignore alone.)"""
import ast
import os
import re
import shlex

from bzlq.workspace.path_patterns import PathPattern

# the commands whose options count for a query, and what reads another file
COMMANDS, IMPORTS = ("query", "common", "always"), ("import", "try-import")
OPTION = "--deleted_packages"
MOST_BYTES, MOST_FILES = 1_000_000, 100
PACKAGE = re.compile(rb"(?<![@\w])//((?:[^:\s\"/]|/(?!/))*):")


class TakenAway:
    """`packages` are named by themselves, each with the file that names it; `patterns` are of directories, whose packages are meant too."""

    def __init__(self, root):
        self.packages, self.patterns = {}, []
        pending, seen = [".bazelrc"], set()
        while pending and len(seen) < MOST_FILES:
            path = pending.pop()
            if path not in seen:
                seen.add(path)
                pending += self.read(root, path)
        for node in ast.walk(tree_of(os.path.join(root, "REPO.bazel"))):
            if isinstance(node, ast.Call) and getattr(node.func, "id", "") == "ignore_directories":
                texts = [it.value for it in ast.walk(node) if isinstance(it, ast.Constant) and isinstance(it.value, str)]
                self.patterns += [PathPattern(it.split("/")) for it in texts]

    def read(self, root, path):
        """Reads a .bazelrc; gives those that it imports."""
        found = []
        for line in text_of(os.path.join(root, path)).replace("\\\n", " ").splitlines():
            try:
                first, *words = shlex.split(line, comments=True) or [""]
            except ValueError:
                continue
            if first in IMPORTS and words:
                found.append(words[0].replace("%workspace%", root))
            if first in COMMANDS:
                for at, word in enumerate(words):
                    name, equals, value = word.partition("=")
                    value = value if equals else "".join(words[at + 1:at + 2])
                    if name == OPTION:
                        self.packages |= dict.fromkeys((it.strip().removeprefix("//") for it in value.split(",")), path)
        return found

    def why(self, package):
        """What takes a package away; nothing where it stays."""
        if package in self.packages:
            return f"{OPTION} of {os.path.basename(self.packages[package])}"
        parts = package.split("/")
        above = ("/".join(parts[:count]) for count in range(1, len(parts) + 1))
        return "ignore_directories of REPO.bazel" if self.patterns and any(pattern.has(it) for it in above for pattern in self.patterns) else ""

    def lines(self, text):
        """What is said of an answer that has targets of such packages."""
        if not self.packages and not self.patterns:
            return []
        counts, whys = {}, {}
        for it in PACKAGE.findall(text):
            package = it.decode("utf-8", "replace")
            if package not in whys:
                whys[package] = self.why(package)
            if whys[package]:
                counts[whys[package]] = counts.get(whys[package], 0) + 1
        return [f"bzlq: {count} label{'s' * (count != 1)} of this answer {'is' if count == 1 else 'are'} in packages that {why} takes away from Bazel's query"
                for why, count in sorted(counts.items())]


def text_of(place):
    """The text of a small file; nothing where it can't be read."""
    try:
        with open(place, encoding="utf-8", errors="replace") as file:
            return file.read(MOST_BYTES)
    except OSError:
        return ""


def tree_of(place):
    """The tree of a file; an empty one where it can't be read."""
    try:
        return ast.parse(text_of(place))
    except (SyntaxError, ValueError, RecursionError, MemoryError):
        return ast.parse("")
