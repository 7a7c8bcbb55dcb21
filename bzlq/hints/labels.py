"""Labels: takes a text as a file has it, and the file's own repository and package; gives (repository, package, name), or says what is wrong."""
import re

REPOSITORY = re.compile(r"[\w.+~-]+")
SEGMENT = re.compile(r"[ -9;-\[\]-~]+")
# what no segment has: a character, or the bytes of some
ODD = re.compile(r"[\x80-\xff]+|[^ -9;-\[\]-~]")


class BadLabel(Exception):
    """A text that is no label; the message says why."""


def check(path, what, may_be_empty=False):
    """Raises what is wrong with a path in a label."""
    if path == "" and may_be_empty:
        return
    for segment in path.split("/"):
        if segment == "":
            raise BadLabel(f"the {what} '{path}' has an empty segment" if path else f"the {what} is empty")
        if segment in (".", ".."):
            raise BadLabel(f"the {what} '{path}' has a segment '{segment}'")
        if not SEGMENT.fullmatch(segment):
            odd = ODD.search(segment)[0]
            raise BadLabel(f"the {what} '{path}' has the character {odd!r}")


def split(text, repository="", package=""):
    """The parts of a label."""
    if text.startswith("@@"):
        raise BadLabel("labels that begin with '@@' are left out")
    name = text
    if text.startswith("@"):
        repository, slashes, rest = text[1:].partition("//")
        if not slashes and not REPOSITORY.fullmatch(repository) or repository and not REPOSITORY.fullmatch(repository):
            raise BadLabel(f"'@{repository}' is no repository")
        package, colon, name = rest.partition(":")
        name = name if colon else package.rpartition("/")[2] or repository
    elif text.startswith("//"):
        package, colon, name = text[2:].partition(":")
        name = name if colon else package.rpartition("/")[2]
    elif text.startswith(":"):
        name = text[1:]
    elif ":" in text:
        raise BadLabel(f"a label of another package begins with '//': '//{text}'")
    check(package, "package", True)
    check(name, "name")
    return repository, package, name


def joined(repository, package, name):
    """The text of a label."""
    return (f"@{repository}" if repository else "") + f"//{package}:{name}"


def directory(repository, package):
    """Where a package lies in the workspace."""
    return "/".join(part for part in (f"external/{repository}" if repository else "", package) if part)


def path(label):
    """The path of the file that a label in full names."""
    repository, package, name = split(label)
    return "/".join(part for part in (directory(repository, package), name) if part)
