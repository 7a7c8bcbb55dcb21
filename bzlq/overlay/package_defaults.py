"""What calls of `package(..)` say, which bq accepts without effect: takes the file of a bundle, gives lines as those of `bq --facts`, one for each
package that says something."""
import ast
import json
import os
import re

from bzlq.overlay.literals import literal
from bzlq.overlay.reading import parsed
from bzlq.workspace.files import content, files, parts
from bzlq.workspace.packages import NAMES as NAMES_OF_FILES

CALL = re.compile(rb"^package\(", re.M)
TARGET = re.compile(rb'^\{"target":"([^":]*)', re.M)
NAMES = ("default_visibility", "default_testonly", "default_deprecation", "features", "default_applicable_licenses", "default_package_metadata")


def lines_of(bundle, facts):
    """The lines, in the order of the packages that these facts have a target of."""
    asked = {it.decode("utf-8", "replace") for it in TARGET.findall(facts)}
    for path, text in parts(bundle).items():
        if label(os.path.dirname(path)) in asked and os.path.basename(path) in NAMES_OF_FILES and (found := CALL.search(text)):
            line = text.count(b"\n", 0, found.start()) + 1
            if said := members(text, line):
                yield json.dumps({"package": label(os.path.dirname(path)), "file": path, "line": line, **said}, separators=(",", ":"), ensure_ascii=False)


def packages_with(name, place):
    """The packages of a bundle, or of a directory, whose calls give their rules this default, or one that they don't show."""
    texts = parts(place) if not os.path.isdir(place) else {it: content(place, it) for it in files(place) if os.path.basename(it) in NAMES_OF_FILES}
    is_there = re.compile(rb"^[^#\n]*\b%s\b" % name.encode(), re.M)
    found = [(path, text) for path, text in texts.items() if os.path.basename(path) in NAMES_OF_FILES and is_there.search(text)]
    return [label(os.path.dirname(path)) for path, text in found if said_of(text).get(name, True) not in (False, 0, "")]


def said_of(text):
    """What the first call of `package(..)` says."""
    found = CALL.search(text)
    return members(text, text.count(b"\n", 0, found.start()) + 1) if found else {}


def label(directory):
    """The package in a directory."""
    if directory.startswith("external/"):
        _, repository, *rest = directory.split("/")
        return f"@{repository}//{'/'.join(rest)}"
    return f"//{directory}"


def members(text, line):
    """What the call in this line says, as far as it shows values; null for one that it doesn't show."""
    try:
        found = next((node.value for node in parsed(text).body if node.lineno == line and isinstance(node, ast.Expr)), None)
    except (SyntaxError, ValueError, RecursionError, MemoryError):
        return {}
    return {key.arg: shown(key.value) for key in getattr(found, "keywords", ()) if key.arg in NAMES}


def shown(node):
    """The value of an expression that shows it; null for another one."""
    is_shown, value = literal(node)
    return value if is_shown and isinstance(value, str | bool | int | list) else None
