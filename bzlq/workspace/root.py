"""Where the workspace is: takes the folder that one stands in, gives the root, and the folder's path from there."""
import os
import re

from bzlq.workspace.files import ROOT_FILES, SCHEMA, Refused

# what Bazel puts before each BUILD file, and bq doesn't read; a line of it that isn't a comment
PRELUDE, SAYS = "tools/build_rules/prelude_bazel", re.compile(rb"^[^\s#]", re.M)


class NoRoot(Refused):
    """There is no workspace here; the message says so."""


def root_of(folder):
    """The nearest folder upwards that has a file of a workspace's root."""
    folder = os.path.realpath(folder)
    at = folder
    while True:
        if any(os.path.lexists(os.path.join(at, name)) for name in ROOT_FILES):
            return at
        above = os.path.dirname(at)
        if above == at:
            break
        at = above
    if os.path.isfile(os.path.join(folder, SCHEMA)):
        return folder
    raise NoRoot(f"no WORKSPACE or MODULE.bazel in {folder} or above it{below(folder)}")


def preludes(text):
    """What is said of a prelude, by its text."""
    return [f"{PRELUDE}, which Bazel puts before each BUILD file, isn't read"] if SAYS.search(text) else []


def preludes_of(root):
    """The same of a directory."""
    try:
        with open(os.path.join(root, PRELUDE), "rb") as file:
            return preludes(file.read(1_000_000))
    except OSError:
        return []


def folder_of(root):
    """The path of the folder that one stands in, from the root."""
    found = os.path.relpath(os.path.realpath(os.getcwd()), root)
    return "" if found == "." else found


def below(folder):
    """A folder of this one that looks like a root."""
    try:
        names = sorted(name for name in os.listdir(folder) if os.path.isdir(os.path.join(folder, name)))
    except OSError:
        return ""
    found = next((name for name in names if any(os.path.isfile(os.path.join(folder, name, it)) for it in ROOT_FILES)), "")
    return f" (there is one in {found})" if found else ""


def build_file(root, directory):
    """Whether a directory of the workspace is a package."""
    return any(os.path.isfile(os.path.join(root, directory, name)) for name in ("BUILD.bazel", "BUILD"))
