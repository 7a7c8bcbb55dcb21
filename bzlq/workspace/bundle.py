"""The bundle of a workspace: takes the folders, of which the last one that has a file of a path counts; writes one text with the names of all
files, and the bytes of BUILD files, .bzl files and the schema."""
import posixpath
from collections import Counter

from bzlq.workspace.files import MAX_BYTES, Refused, content, files, has_content

# how many files bq reads without --large, of these BUILD and loaded .bzl files, loads in them, and bytes in a bundle
FILES, MODULES, LOADS, BYTES = 65_536, 16_384, 262_144, 1 << 30
# how many files it reads with --large, and of these BUILD and loaded .bzl files
MOST_FILES, MOST_MODULES = 16_777_216, 4_194_304
# the least that a bundle has in bytes for each module but one
MODULE = len("=== a/BUILD\n")
# how many directories are named where there are too many files
SHOWN = 3


class TooMany(Refused):
    """More files than bq reads; the message says how many, and where most are."""


def merged(folders):
    """Each path, with the last folder that has a file there."""
    found = {}
    for folder in folders:
        for path in files(folder):
            found[path] = folder
    return found


def written(path, text):
    """The part of a bundle for a file."""
    if text and not text.endswith(b"\n"):
        text += b"\n"
    return b"=== " + path.encode() + b"\n" + text


def has_header(text):
    """Whether a text has a line that a bundle would take for a file's name."""
    return text.startswith(b"=== ") or b"\n=== " in text


def write_bundle(found, out, content=content):
    """Writes the bundle of these paths; gives the paths that can't be in one. `content` gives the bytes of a file of a folder."""
    if len(found) > MOST_FILES:
        raise TooMany(f"{len(found):,} files, and bq reads {MOST_FILES:,}: name directories in .bazelignore (most are in {largest(found)})")
    left_out, left = [], MAX_BYTES
    for path, folder in sorted(found.items()):
        text = content(folder, path) if has_content(path) else b""
        if has_header(text):
            left_out.append(path)
            continue
        part = written(path, text)
        left -= len(part)
        if left < 0:
            raise TooMany(f"the BUILD and .bzl files have more bytes than the {MAX_BYTES:,} that bq reads: name directories in .bazelignore")
        out.write(part)
    return left_out


def is_large(text):
    """Whether bq may read this bundle with --large alone, which changes nothing for others: the numbers are those of files, of BUILD and .bzl files
    or of words `load` in it, so some are counted that are no modules, or no loads."""
    if len(text) < MODULES * MODULE:
        return False
    # (the first header has no line before it)
    return (len(text) > BYTES or text.count(b"\n=== ") >= FILES or text.count(b"load") > LOADS
            or sum(text.count(it) for it in (b"BUILD\n", b"BUILD.bazel\n", b".bzl\n")) > MODULES)


def is_large_at(path):
    """The same of the file of a bundle."""
    with open(path, "rb") as file:
        return is_large(file.read())


def largest(paths):
    """The directories that hold most of these files."""
    at = ""
    while True:
        depth = len(at)
        counts = Counter(path[depth:].partition("/")[0] for path in paths if path.startswith(at) and "/" in path[depth:])
        most = sorted(counts.items(), key=lambda it: (-it[1], it[0]))[:SHOWN]
        if not most or len(most) > 1 and most[0][1] < 4 * most[1][1]:
            break
        if most[0][1] < len(paths) // 2 or not any("/" in path[depth + len(most[0][0]) + 1:] for path in paths if path.startswith(f"{at}{most[0][0]}/")):
            break
        at = f"{at}{most[0][0]}/"
    return ", ".join(f"{at}{name} ({count:,})" for name, count in most) or "the root"


def in_packages(found):
    """Those of these paths that lie in a package, and those that count elsewhere."""
    packages = {posixpath.dirname(path) for path in found if posixpath.basename(path) in ("BUILD", "BUILD.bazel")}
    known = {}

    def is_owned(directory):
        if directory not in known:
            known[directory] = directory in packages or bool(directory) and is_owned(posixpath.dirname(directory))
        return known[directory]

    return {path: folder for path, folder in found.items() if has_content(path) or is_owned(posixpath.dirname(path))}


def fewer(found):
    """The paths that count where there are more than bq reads without --large: those in no package, which nothing can name, are left out."""
    return in_packages(found) if len(found) > FILES else found
