"""Values as Starlark writes them, each in one line. (It stands by itself, since most runs need no more of an overlay than how it is called.)"""
import re

# control characters, and halves of characters
UNWRITABLE = re.compile("[\0-\x1f\x7f\ud800-\udfff]")


def quoted(text):
    """A text as Starlark writes it; a question mark stands for what has no escape there."""
    return '"' + UNWRITABLE.sub("?", text.replace("\\", "\\\\").replace('"', '\\"')) + '"'


def starlark(value):
    """A value as Starlark writes it."""
    match value:
        case str():
            return quoted(value)
        case dict():
            return "{" + ", ".join(f"{starlark(key)}: {starlark(it)}" for key, it in value.items()) + "}"
        case list() | tuple():
            return "[" + ", ".join(map(starlark, value)) + "]"
        case _:
            return repr(value)
