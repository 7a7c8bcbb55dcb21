"""What a workspace's answers stand on, so that it is made anew only where that changed: takes a root, gives what was seen of its files.

A print is two sums: of the files whose bytes count, by what their directory entries say, and of all names, which is all that counts of the
others. Of a file that changed in the last seconds its bytes count too: it may change again before the clock of the disk goes on.
"""
import hashlib
import operator
import os
import stat
import time

from bzlq.workspace.files import ROOT_FILES, SCHEMA, counted_bytes, ignored, is_path, open_regular

# files whose bytes count, besides those that end in .bzl
COUNTED = frozenset(("BUILD", "BUILD.bazel", SCHEMA, ".bazelignore", *ROOT_FILES))
NAME = operator.attrgetter("name")
# what no name has in it
SEPARATOR = "\0"
# for how many nanoseconds a change is recent
RECENT = 2_000_000_000


class Seen:
    """`files` has the entry of each file whose bytes count, by its path; `names` by each directory the names in it that aren't directories, as one text
    (names_in); `count` how many these are; `odd` the paths that bq can't have; `links` the directories that are links, or lie behind one."""

    def __init__(self, root):
        self.root, self.since = root, time.time_ns() - RECENT
        self.files, self.names, self.count, self.odd, self.links = {}, {}, 0, [], set()
        contents, names = hashlib.sha256(), hashlib.sha256()
        self.walk()
        for directory, listed in self.names.items():
            names.update(os.fsencode(f"{directory}\0{listed}\0\0"))
        for path, entry in self.files.items():
            contents.update(os.fsencode(f"{path} {' '.join(map(str, entry))}\n"))
        for path in self.odd:
            contents.update(os.fsencode(f"{path}\n"))  # (an overlay says which are left out)
        self.print = {"contents": contents.hexdigest(), "names": names.hexdigest()}

    def walk(self):
        """Goes through the directories."""
        without = ignored(self.root)
        pending = [("", self.root, ())]
        while pending:
            directory, place, around = pending.pop()
            before = f"{directory}/" if directory else ""
            with os.scandir(place) as entries:
                found = sorted(entries, key=NAME)
            listed = []
            are_plain = is_plain("".join([entry.name for entry in found]))
            for entry in found:
                name = entry.name
                if not are_plain and not is_path(name):
                    self.odd.append(before + name)
                if not entry.is_file(follow_symlinks=False) and is_directory(entry):
                    inner = way_in(entry, directory, around)
                    if name != ".git" and before + name not in without and inner is not None:
                        pending.append((before + name, entry.path, inner))
                        if inner:
                            self.links.add(before + name)
                    continue
                listed.append(name)
                if name.endswith(".bzl") or name in COUNTED:
                    self.files[before + name] = entry_of(entry, self.since)
            self.names[directory] = SEPARATOR.join(listed)
            self.count += len(listed)

    def __contains__(self, path):
        """Whether there is a file of this path."""
        directory, _, name = path.rpartition("/")
        return name in names_in(self.names.get(directory, ""))


def names_in(text):
    """The names that a text of `Seen` has."""
    return text.split(SEPARATOR) if text else []


def is_plain(names):
    """Whether names, one after another, are all plain: most are."""
    return names.isascii() and names.isprintable() and ":" not in names and "\\" not in names


def is_directory(entry):
    """Whether an entry is a directory, or a link to one; not where it can't be read."""
    try:
        return entry.is_dir()
    except OSError:
        return False


def way_in(entry, directory, around):
    """The links on the way into a directory; nothing where it lies around itself, or is a link to Bazel's output."""
    if not entry.is_symlink():
        return around
    real, here = os.path.realpath(entry.path), os.path.realpath(os.path.dirname(entry.path))
    is_output = not directory and entry.name.startswith("bazel-")
    is_around = real in around or f"{here}/".startswith(f"{real.rstrip('/')}/")
    return None if is_output or is_around else (*around, real)


def entry_of(place, since):
    """What the directory entry of a file says of it: size, times, number; with a sum of its bytes where it changed since then. Nothing of a file
    that isn't there."""
    try:
        found = os.stat(place)
    except OSError:
        return ()
    entry = (found.st_size, found.st_mtime_ns, found.st_ctime_ns, found.st_ino, found.st_dev)
    # (of what is no regular file bq looks at nothing)
    if not stat.S_ISREG(found.st_mode):
        return entry
    return (*entry, sum_of(place)) if max(found.st_mtime_ns, found.st_ctime_ns) > since else entry


def sum_of(place):
    """A sum of the bytes of a file that count; of one that can't be read a text that is none."""
    try:
        with open_regular(place) as file:
            return hashlib.sha256(counted_bytes(file, os.path.basename(place))).hexdigest()
    except OSError as error:
        return str(error.strerror)
