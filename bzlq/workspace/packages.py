"""The packages of a workspace: takes the paths of its files, gives which directories are packages, which package owns a path, and which packages
bound another (docs/BUILD_RULES.md, "Repositories and packages")."""
import posixpath

from bzlq.hints.labels import REPOSITORY

NAMES = ("BUILD", "BUILD.bazel")


def repository_of(directory):
    """The directory in which the repository of a directory lies; nothing where the directory is in no repository."""
    first, _, rest = directory.partition("/")
    if first != "external":
        return ""
    name = rest.partition("/")[0]
    return f"external/{name}" if REPOSITORY.fullmatch(name) and name not in (".", "..") else None


class Packages:
    """`files` has the path of each package's BUILD file by the package's directory, `own` the paths that each owns, in order."""

    def __init__(self, paths):
        self.files, self.own, self.bounds, self.owners = {}, {}, {}, {}
        paths = sorted(paths)
        for path in paths:
            directory, name = posixpath.split(path)
            if name in NAMES and repository_of(directory) is not None:
                # (of two the one with the longer name counts, which comes last)
                self.files[directory] = path
        for path in paths:
            owner = self.owner(posixpath.dirname(path))
            if owner is not None:
                self.own.setdefault(owner, []).append(path)
        for directory in self.files:
            above = self.above(directory)
            if above is not None:
                self.bounds.setdefault(above, []).append(directory)

    def owner(self, directory):
        """The package that owns the files of a directory: the nearest above them in their repository."""
        if directory not in self.owners:
            self.owners[directory] = directory if directory in self.files else self.above(directory)
        return self.owners[directory]

    def above(self, directory):
        """The nearest package above a directory in its repository, and not the directory's own."""
        root = repository_of(directory)
        return None if root is None or directory == root else self.owner(posixpath.dirname(directory))
