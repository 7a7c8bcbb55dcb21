"""The labels that a word may become: takes the beginning of a label, gives what it may go on to. Nothing is loaded for it: packages are those on
the disk, and targets those of the last answer's workspace (`labels` in the cache) and those that the BUILD file names."""
import itertools
import os
import re
import sys

from bzlq.cache.folder import cache_of
from bzlq.cli.labels import kept_labels
from bzlq.workspace.files import Refused, ignored, is_path, read_file
from bzlq.workspace.root import build_file, folder_of, root_of

NAME = re.compile(rb"""\bname\s*=\s*["']([^"'\n%{}]+)["']""")
# how many are given at most
MOST = 2000
# the labels that a shell takes as they are: one with `$(..)` in it would be run
PLAIN = re.compile(r"[\w@%+=:,./~^-]+", re.ASCII)


def names_of(root, package):
    """The names of a package's targets."""
    found = set()
    before = re.escape(package.encode("utf-8", "surrogateescape"))
    found.update(re.findall(rb"^" + before + rb":([^\n]*)$", kept_labels(cache_of(root)), re.M))
    if package.startswith("//"):
        for name in ("BUILD.bazel", "BUILD"):
            try:
                found.update(NAME.findall(read_file(os.path.join(root, package[2:]), name)))
                break
            except OSError:
                continue
    return sorted({it.decode("utf-8", "surrogateescape") for it in found} - {"BUILD", "BUILD.bazel"})


def packages_of(root, path):
    """What a path below `//` may go on to: packages, directories, and all below."""
    directory, _, start = path.rpartition("/")
    if directory and not is_path(directory):
        return
    before, without = f"//{directory}/" if directory else "//", ignored(root)
    try:
        with os.scandir(os.path.join(root, directory)) as entries:
            names = sorted(it.name for it in entries if it.name.startswith(start) and not it.name.startswith((".", "bazel-")) and it.is_dir())
    except OSError:
        return
    for name in names:
        place = f"{directory}/{name}" if directory else name
        if place in without:
            continue
        if build_file(root, place):
            yield f"{before}{name}"
            yield f"{before}{name}:"
        if has_directories(os.path.join(root, place)):
            yield f"{before}{name}/"
    if "...".startswith(start):
        yield f"{before}..."


def has_directories(place):
    """Whether a directory has others in it."""
    try:
        with os.scandir(place) as entries:
            return any(it.is_dir() and not it.name.startswith(".") for it in entries)
    except OSError:
        return False


def candidates(word, root, folder):
    """The words that this one is the beginning of."""
    if not word.startswith(("//", "@", ":")) and ":" not in word:
        return []
    package, colon, start = word.partition(":")
    if not colon:
        if word.startswith("//"):
            return packages_of(root, word[2:])
        labels = kept_labels(cache_of(root)).decode("utf-8", "surrogateescape").splitlines()
        return sorted({it.partition(":")[0] for it in labels if it.startswith(word)} | {f"{it.partition(':')[0]}:" for it in labels if it.startswith(word)})
    full = package if package.startswith(("//", "@")) else "//" + os.path.normpath(os.path.join(folder, package)).removeprefix(".")
    if full.startswith("//") and full != "//" and not is_path(full[2:]):
        return []  # (it would lead out of the workspace)
    return [f"{package}:{it}" for it in (*names_of(root, full), "all") if it.startswith(start)]


def complete(word):
    """Writes them, a line each; gives the status. Nothing else is written: a shell shows it in the middle of a line."""
    try:
        root = root_of(os.getcwd())
        lines = itertools.islice(filter(PLAIN.fullmatch, candidates(word, root, folder_of(root))), MOST)
        sys.stdout.buffer.write("".join(f"{it}\n" for it in lines).encode("utf-8", "surrogateescape"))
        sys.stdout.flush()
    except (Refused, OSError):
        return 2
    return 0


def complete_line(word, at, found=[]):  # noqa: B006
    """The same for readline, which asks for one at a time."""
    if at == 0:
        root = root_of(os.getcwd())
        found[:] = list(filter(PLAIN.fullmatch, candidates(word, root, folder_of(root))))[:MOST]
    return found[at] if at < len(found) else None
