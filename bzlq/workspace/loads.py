"""The labels that a BUILD or .bzl file loads: takes its bytes, gives those of the strings that stand first in a call of `load`, as its tokens say
(docs/LANGUAGE.md, "Tokens"). A text that isn't cut into tokens rightly here has a fault, so that it loads nothing."""
import re

BLANK = rb"(?:[ \t]|\\\r?\n)*"
LOAD = re.compile(
    rb"#[^\n]*|(?P<load>\bload" + BLANK + rb"\((?:\s|\#[^\n]*|\\\r?\n)*)?"
    rb"(?P<raw>[rR]?)(?:\"\"\"(?P<a>(?:[^\\]|\\.)*?)\"\"\"|'''(?P<b>(?:[^\\]|\\.)*?)'''|(?P<open>\"\"\"|''').*|\"(?P<c>(?:[^\"\\\n]|\\.)*)\"|'(?P<d>(?:[^'\\\n]|\\.)*)')", re.S)
ESCAPE = re.compile(rb"\\(\r?\n|.)", re.S)


def loads_of(text):
    """The labels, as they are written."""
    if b"load" not in text:
        return []
    # (a string of three quotes that is never closed is the rest of the text)
    return [value(found) for found in LOAD.finditer(text) if found["load"] is not None and not found["open"]]


def value(found):
    """The value of a string."""
    text = next(found[it] for it in "abcd" if found[it] is not None)
    if b"\\" in text and not found["raw"]:
        text = ESCAPE.sub(lambda it: b"" if it[1].endswith(b"\n") else it[1], text)
    return text.decode("utf-8", "surrogateescape")
