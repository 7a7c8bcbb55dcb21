"""What the files of a workspace say, kept from run to run: takes the root and the file in which it is kept, gives the `File` of each path.

A file is read again where its directory entry has changed. On a terminal a line says every two seconds how far that is.
"""
import contextlib
import marshal
import os
import sys
import time

from bzlq.cache.fingerprint import RECENT, entry_of
from bzlq.cache.plain import keep_at, kept_at
from bzlq.cli.process import write
from bzlq.overlay.reading import Call, Def, File, Statement, read

PARTS = {it.__name__: it for it in (Call, Def, Statement)}
# after how many seconds a line is written
PAUSE = 2


class Readings:
    """`kept` is what each path said before: the entry of its file, and the `File` as bytes. Another version of the scripts reads all anew."""

    def __init__(self, root, path="", version=""):
        self.root, self.path, self.version, self.now = root, path, version, {}
        self.kept = (kept_at(path, version) or {}) if path else {}
        self.next, self.is_shown = time.monotonic() + PAUSE, sys.stderr.isatty()

    def all(self, paths, content):
        """The files of these paths; `content` gives the bytes of one."""
        found = {}
        for at, path in enumerate(paths):
            found[path] = self.of(path, content)
            if self.is_shown and time.monotonic() > self.next:
                self.next = time.monotonic() + PAUSE
                write([f"bzlq: {at + 1:,} of {len(paths):,} BUILD and .bzl files"], sys.stderr)
        return found

    def of(self, path, content):
        """What a file says."""
        entry = entry_of(os.path.join(self.root, path), time.time_ns() - RECENT) if self.path else ()
        before = self.kept.get(path)
        if entry and before and before[0] == entry:
            self.now[path] = before
            return unpacked(path, before[1])
        found = read(path, content(path))
        # (what changed in between may have been read before or after)
        if entry and entry == entry_of(os.path.join(self.root, path), 0 if len(entry) > 5 else time.time_ns()):
            with contextlib.suppress(ValueError):  # (of a value that can't be kept)
                self.now[path] = (entry, packed(found))
        return found

    def keep(self):
        """Keeps what was read."""
        if self.path and self.now != self.kept:
            keep_at(self.path, self.version, self.now)


def packed(file):
    """The parts of a `File` as bytes: its values, and which of them are lists or dicts of what."""
    values, kinds = {}, {}
    for name, value in vars(file).items():
        listed = value.values() if isinstance(value, dict) else value if isinstance(value, list) else ()
        kind = next((type(it).__name__ for it in listed), "")
        if name == "path" or kind not in PARTS:
            values[name] = value
        elif isinstance(value, list):
            kinds[name], values[name] = kind, [tuple(vars(it).values()) for it in value]
        else:
            kinds[name], values[name] = kind, {key: tuple(vars(it).values()) for key, it in value.items()}
    return marshal.dumps((values, kinds))


def unpacked(path, text):
    """The `File` of a path that these bytes are of."""
    values, kinds = marshal.loads(text)
    file = File(path, values["is_build"])
    for name, value in values.items():
        if name in kinds:
            kind = PARTS[kinds[name]]
            value = [kind(*it) for it in value] if isinstance(value, list) else {key: kind(*it) for key, it in value.items()}
        setattr(file, name, value)
    return file
