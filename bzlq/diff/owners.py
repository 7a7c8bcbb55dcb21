"""Who owns files, by the CODEOWNERS of a repository of git: takes its text, gives the owners of a path. The last line that has a match counts, as on
GitHub. A section of GitLab is no pattern: its name and its own owners are left out, and counted."""
import re

from bzlq.diff.git import NoRevision
from bzlq.workspace.path_patterns import ANY, PathPattern

PLACES = (".github/CODEOWNERS", "CODEOWNERS", "docs/CODEOWNERS")
WORD = re.compile(r"(?:\\.|[^\s\\])+")


class Owners:
    """`rules` are the patterns, in order, each with its owners, and `by_first` their numbers by the directory that they begin with; `sections` counts
    the lines that name a section; `before` is the workspace's path in the repository; `known` has the owners of paths."""

    def __init__(self, text, before=""):
        self.before, self.rules, self.by_first, self.sections, self.known = before, [], {}, 0, {}
        for line in text.splitlines():
            words = WORD.findall(re.sub(r"(?:^|\s)#.*", "", line))
            if words and words[0].startswith(("[", "^[")):
                self.sections += 1
            elif words:
                self.add(pattern_of(re.sub(r"\\(.)", r"\1", words[0])), words[1:])

    def add(self, pattern, owners):
        """Adds a pattern. (Most begin with a directory, and are looked at for the files of that one alone.)"""
        first = pattern.segments[0]
        self.by_first.setdefault("" if pattern.is_wild[0] else first, []).append(len(self.rules))
        self.rules.append((pattern, owners))

    @staticmethod
    def of(git, revision):
        """Those of a revision; nothing where it has no such file."""
        for path in PLACES:
            try:
                return Owners(git.file(revision, path).decode("utf-8", "replace"), git.prefix)
            except (NoRevision, OSError):
                continue
        return None

    def of_path(self, path):
        """The owners of a file of the workspace."""
        if path not in self.known:
            full = self.before + path
            numbers = sorted([*self.by_first.get("", ()), *self.by_first.get(full.partition("/")[0], ())], reverse=True)
            self.known[path] = next((self.rules[it][1] for it in numbers if self.rules[it][0].has(full)), [])
        return self.known[path]


def pattern_of(text):
    """The pattern of a line: with a slash in it, but at its end, it counts from the root; and what is below a directory belongs to it."""
    is_directory, parts = text.endswith("/"), text.strip("/").split("/")
    segments = [] if "/" in text.rstrip("/") else [ANY]
    segments += [*parts[:-1], "*", ANY] if parts[-1] == ANY else parts
    if is_directory:
        return PathPattern([*segments, "*", ANY])
    # (`docs/*` has the files of docs alone)
    return PathPattern(segments if parts[-1] == "*" and len(parts) > 1 else [*segments, ANY])
