"""The statements of .bzl files in whose place others stand, by their files, lines and names."""
from collections import defaultdict


class Replaced:
    """`listed` has them by the paths of their files, in the order in which they were found."""

    def __init__(self):
        self.listed = defaultdict(list)
        self.keys, self.lines, self.by_name = set(), defaultdict(set), {}

    def add(self, path, statement):
        """Adds a statement of a file."""
        self.listed[path].append(statement)
        self.keys.add(key_of(path, statement))
        self.lines[path].update(range(statement.first, statement.last + 1))
        for name in statement.names:
            self.by_name.setdefault((path, name), statement)

    def has(self, path, statement):
        """Whether this statement is one of them."""
        return key_of(path, statement) in self.keys

    def has_line(self, path, line):
        """Whether one of them has this line."""
        return path in self.lines and line in self.lines[path]

    def of_name(self, path, name):
        """The first of them that binds a name; nothing where none does."""
        return self.by_name.get((path, name))


def key_of(path, statement):
    """What tells a statement from all others."""
    return path, statement.first, statement.last, tuple(statement.names)
