"""Waits until files of a workspace change: takes the root. Where the system says so (inotify), it is waited for that; else the files are looked at
again and again, which takes at most a twentieth of a processor."""
import ctypes
import errno
import os
import select
import sys
import time

from bzlq.cache.fingerprint import Seen, is_directory, way_in
from bzlq.workspace.files import ignored

# IN_MODIFY, IN_ATTRIB, IN_CLOSE_WRITE, IN_MOVED_FROM, IN_MOVED_TO, IN_CREATE, IN_DELETE, IN_DELETE_SELF, IN_MOVE_SELF; and IN_ONLYDIR
MASK = 0x2 | 0x4 | 0x8 | 0x40 | 0x80 | 0x100 | 0x200 | 0x400 | 0x800 | 0x01000000
# how long nothing has to happen until a change is taken for whole, and how long that is waited for; in seconds
QUIET, MOST = 0.1, 2.0
# how long the looks are apart at least, and by how much longer than a look takes
PAUSE, SHARE = 0.5, 20


class Changes:
    """`now` is the print of the workspace as it was last looked at."""

    def __init__(self, root):
        self.root, self.pipe = root, -1
        self.add_all()
        self.now = Seen(root).print

    def close(self):
        """Ends the watch of the system, if there is one."""
        if self.pipe >= 0:
            os.close(self.pipe)
            self.pipe = -1

    def how(self):
        """How it learns of changes."""
        return "by inotify" if self.pipe >= 0 else "by looking at its files again and again"

    def wait(self):
        """Waits until the workspace is another than it was when this ended last."""
        before = self.now
        while self.now == before:
            if self.pipe >= 0:
                self.until_told()
                self.add_all()
            start = time.monotonic()
            try:
                self.now = Seen(self.root).print
            except OSError:  # (a directory that went meanwhile)
                self.now = {}
            if self.pipe < 0 and self.now == before:
                time.sleep(max(PAUSE, SHARE * (time.monotonic() - start)))

    def until_told(self):
        """Waits until the system says that something has happened, and then until nothing happens for a moment."""
        poll = select.poll()
        poll.register(self.pipe, select.POLLIN)
        poll.poll()
        last = time.monotonic() + MOST
        while time.monotonic() < last:
            os.read(self.pipe, 1 << 16)
            if not poll.poll(QUIET * 1000):
                break

    def add_all(self):
        """Has the system tell of all directories that there are now; else of none."""
        libc = ctypes.CDLL(None, use_errno=True) if sys.platform == "linux" else None
        if self.pipe < 0 and libc and not hasattr(self, "refused"):
            self.pipe = libc.inotify_init1(os.O_CLOEXEC)
        for place in directories(self.root) if self.pipe >= 0 else ():
            if libc.inotify_add_watch(self.pipe, os.fsencode(place), MASK) < 0 and ctypes.get_errno() in (errno.ENOSPC, errno.ENOMEM):
                self.refused = True
                self.close()
                return


def directories(root):
    """The directories that count."""
    without, pending = ignored(root), [("", root, ())]
    while pending:
        directory, place, around = pending.pop()
        yield place
        try:
            with os.scandir(place) as entries:
                found = [it for it in entries if it.name != ".git" and is_directory(it)]
        except OSError:
            continue
        for entry in found:
            path = f"{directory}/{entry.name}" if directory else entry.name
            inner = way_in(entry, directory, around)
            if path not in without and inner is not None:
                pending.append((path, entry.path, inner))
