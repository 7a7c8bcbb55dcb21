"""A line of what `bq` writes to standard error, taken apart."""
from dataclasses import dataclass

from bzlq.bq import ERROR, FAULT


@dataclass
class Fault:
    """A fault of a file. What a file prints may look like one: it is taken for one only where the file is there."""

    text: str
    label: str
    line: int
    number: str
    name: str
    detail: str


@dataclass
class Error:
    """The error that ended the run, of a query or of the run itself."""

    text: str
    number: str
    name: str
    detail: str


def read(text):
    """The fault or error in a line; nothing where it is neither."""
    if found := FAULT.fullmatch(text):
        return Fault(text, found["label"], int(found["line"]), found["number"], found["name"], found["detail"])
    found = ERROR.fullmatch(text)
    return Error(text, found["number"], found["name"], found["detail"]) if found else None
