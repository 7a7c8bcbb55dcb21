"""The files of a workspace: of a directory, as `bq --dir` finds them (docs/FORMATS.md, "The directory"), or of the file of a bundle."""
import errno
import functools
import os
import re
import stat
import sys

SCHEMA = "rules.schema"
# how many directories are read; one that links lead to is read once for each way to it
MAX_DIRECTORIES = 1_048_576
# how many bytes bq looks at of a file (F8), and how many of a .bzl file are read: a copy of one without its dicts may be short enough
MAX_SIZE = 1_048_576
MOST_READ = 4 * MAX_SIZE
# how many bytes bq takes of all files together, and of a file whose lines are all read
MAX_BYTES = 1_073_741_824
ROOT_FILES = ("MODULE.bazel", "REPO.bazel", "WORKSPACE", "WORKSPACE.bazel")
VALID = re.compile(r"[ -9;-\[\]-~]+")
# what a file of the root says of the workspace itself, and the names in that
OWN = re.compile(rb"^(?:module|workspace)\(((?:[^()#]|#[^\n]*)*)", re.M)
COMMENT = re.compile(rb"#[^\n]*")
NAMES = re.compile(rb"\b(name|repo_name)\s*=\s*[\"']([\w.+~-]+)[\"']")
# a part that is empty, `.` or `..`
ODD = re.compile(r"(?:^|/)\.{0,2}(?:/|$)")


class Refused(Exception):
    """What can't be asked or made; the message says why."""


class Unreadable(Refused):
    """What `bq` calls E2, a name that is not UTF-8, or a file or directory that is needed and can't be read; or too many directories, E4."""


def refused(text):
    """Ends the program with a sentence and status 2."""
    print(text, file=sys.stderr)
    sys.exit(2)


def likely_root(paths):
    """The directory further down that looks like the workspace's root, where the top has none of its files: the one with most BUILD files."""
    roots = {os.path.dirname(path) for path in paths if os.path.basename(path) in ROOT_FILES}
    if not roots or "" in roots:
        return ""
    packages = [path for path in paths if os.path.basename(path) in ("BUILD", "BUILD.bazel")]
    return max(sorted(roots), key=lambda root: (sum(path.startswith(root + "/") for path in packages), -root.count("/")))


def own_name_in(text):
    """The name of the workspace, as its own files know it, by the bytes of a file of its root; nothing where that doesn't say it."""
    found = OWN.search(text)
    names = dict(NAMES.findall(COMMENT.sub(b"", found[1]))) if found else {}
    return names.get(b"repo_name", names.get(b"name", b""))


def is_path(path):
    """Whether a file of a workspace may have this path."""
    return bool(VALID.fullmatch(path)) and not ODD.search(path)


def has_content(path):
    """Whether a run looks at the bytes of the file at this path. Of all others only the names count."""
    name = path.rpartition("/")[2]
    return path == SCHEMA or name in ("BUILD", "BUILD.bazel") or name.endswith(".bzl")


def open_regular(place):
    """Opens a file for reading; nothing else that has a name there, such as a pipe, at which reading would wait."""
    file = open(place, "rb", opener=lambda name, flags: os.open(name, flags | os.O_NONBLOCK))
    if not stat.S_ISREG(os.fstat(file.fileno()).st_mode):
        file.close()
        raise OSError(errno.EINVAL, "it is no regular file", place)
    return file


def counted_bytes(file, path):
    """The bytes of an open file that count: those of the schema, and of another as many as tell that it is too long."""
    if path == SCHEMA:
        return file.read(MAX_BYTES)
    text = file.read(MOST_READ + 1)
    return text[:MAX_SIZE + 1] if len(text) > (MOST_READ if path.endswith(".bzl") else MAX_SIZE) else text


def read_file(root, path):
    """The bytes of a file of a directory that count."""
    with open_regular(os.path.join(root, path)) as file:
        return counted_bytes(file, path)


def ignored(root):
    """The directories that `.bazelignore` at the root names."""
    try:
        with open_regular(os.path.join(root, ".bazelignore")) as file:
            if os.fstat(file.fileno()).st_size > MAX_BYTES:
                raise Unreadable(f".bazelignore has more than {MAX_BYTES:,} bytes")
            text = file.read()
    except (FileNotFoundError, NotADirectoryError, IsADirectoryError):
        return set()
    return ignored_in(text)


def ignored_in(text):
    """The directories that the text of a `.bazelignore` names."""
    found = set()
    for line in text.split(b"\n"):
        path = line.strip(b" \t\r\f\v").removeprefix(b"./").removesuffix(b"/")
        if path and not path.startswith(b"#"):
            found.add(path.decode("utf-8", "replace"))
    return found


def name_of(entry):
    """The name of an entry of a directory as a text."""
    if entry.isascii():
        return entry
    try:
        return os.fsencode(entry).decode("utf-8")
    except UnicodeDecodeError as error:
        raise Unreadable(f"a name is not UTF-8: {os.fsencode(entry)!r}") from error


def what_is(place, path):
    """What an entry is, links followed; nothing where it is a link that can't be followed, but for one in the place of a file that counts."""
    try:
        return os.stat(place)
    except OSError as error:
        if path == SCHEMA or not os.path.islink(place):
            raise Unreadable(f"{path}: {error.strerror}") from error
        return os.lstat(place) if has_content(path) else None


def unreadable(path, why):
    """What stands in a bundle for a BUILD or .bzl file that can't be read: a file with a fault."""
    return f'fail("{path} can\'t be read: {why}")\n'.encode("utf-8", "surrogateescape")


def is_left_out(path, name, is_link):
    """Whether a run doesn't look at an entry; `is_link` says whether it is a link."""
    return not is_path(path) or name == ".git" or "/" not in path and name.startswith("bazel-") and is_link()


def parts(path):
    """The files of a bundle with their bytes, in order."""
    entry = os.stat(path)
    return parts_then(path, entry.st_ino, entry.st_size, entry.st_mtime_ns)


@functools.lru_cache(maxsize=4)
def parts_then(path, *_):
    """The same, kept as long as what is told of the file stays the same."""
    try:
        with open(path, "rb") as file:
            found = re.split(rb"^=== ([^\n]*)\n", file.read(), flags=re.M)
    except OSError as error:
        raise Unreadable(f"{path}: {error.strerror}") from error
    return {name.decode("utf-8", "replace"): text for name, text in zip(found[1::2], found[2::2])}


def files(root, odd=None):
    """The paths of the files of a directory, or of a bundle, in the order in which they are found. `odd` gets those whose names bq can't have."""
    if os.path.isfile(root):
        yield from parts(root)
        return
    without = ignored(root)
    try:
        first = os.stat(root)
    except OSError as error:
        raise Unreadable(f"{root}: {error.strerror}") from error
    pending = [("", ((first.st_dev, first.st_ino),))]
    left = MAX_DIRECTORIES
    while pending:
        directory, around = pending.pop()
        left -= 1
        if left < 0:
            raise Unreadable(f"{root} has more than {MAX_DIRECTORIES:,} directories, links followed")
        try:
            with os.scandir(os.path.join(root, directory) or ".") as entries:
                listed = sorted(entries, key=lambda it: it.name)
        except OSError as error:
            raise Unreadable(f"{directory or root}: {error.strerror}") from error
        for entry in listed:
            name = name_of(entry.name)
            path = f"{directory}/{name}" if directory else name
            if is_left_out(path, name, entry.is_symlink):
                if odd is not None and not is_path(path):
                    odd.append(path)
                continue
            if entry.is_file(follow_symlinks=False):
                yield path
                continue
            found = what_is(entry.path, path)
            if found is None:
                continue
            identity = (found.st_dev, found.st_ino)
            if stat.S_ISDIR(found.st_mode) and path not in without and identity not in around:
                pending.append((path, (*around, identity)))
            if stat.S_ISREG(found.st_mode) or stat.S_ISLNK(found.st_mode):
                yield path


def content(root, path):
    """The bytes of a file."""
    if os.path.isfile(root):
        return parts(root)[path]
    try:
        return read_file(root, path)
    except OSError as error:
        if path != SCHEMA and has_content(path):
            return unreadable(path, error.strerror)
        raise Unreadable(f"{path}: {error.strerror}") from error
