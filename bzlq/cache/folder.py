"""The folder in which scripts keep what they made: takes nothing, gives it once it is sure that nobody else may write there.

It is `bzlq` in $XDG_CACHE_HOME or ~/.cache; or, where the home folder isn't there or can't be written to, one of the user's own in the
folder for temporary files. A folder of another user's, one that others may write to, and a link aren't used, and no file there is opened
through a link.
"""
import contextlib
import fcntl
import functools
import hashlib
import os
import shutil
import stat
import sys
import tempfile
import time

from bzlq.workspace.files import Refused

# after how many seconds a room goes that no run holds yet
UNHELD = 3600


class Unsafe(Refused):
    """A folder that others may write to; the message says so."""


def cache():
    """The folder, which is there and is the user's own."""
    named = os.environ.get("XDG_CACHE_HOME", "")
    if os.path.isabs(named):
        return own(os.path.join(named, "bzlq"), True)
    return cache_at(os.path.join(os.path.expanduser("~"), ".cache", "bzlq"), tempfile.gettempdir())


def cache_of(root):
    """The folder for a workspace, which needn't be there."""
    return os.path.join(cache(), hashlib.sha256(os.fsencode(root)).hexdigest()[:16])


@functools.lru_cache
def cache_at(place, temporary):
    """That in the home folder, or else the one in the folder for temporary files."""
    try:
        return own(place, True)
    except (OSError, Unsafe) as error:
        from bzlq.cli.process import write  # (not at the top: what completes words has no time for it)
        found = own(os.path.join(temporary, f"bzlq-{os.geteuid()}"))
        why = error.strerror if isinstance(error, OSError) else "others may write there"
        write([f"{os.path.basename(sys.argv[0])}: nothing can be kept in {place} ({why}): {found} has it"], sys.stderr)
        return found


def own(folder, tightens=False):
    """A folder of the user's own, which is made where it isn't there. With `tightens` others lose the right to write there: what is in it is
    looked at on its own."""
    os.makedirs(os.path.dirname(folder), exist_ok=True)
    with contextlib.suppress(FileExistsError):
        os.mkdir(folder, 0o700)
    found = os.lstat(folder)
    if not stat.S_ISDIR(found.st_mode) or found.st_uid != os.geteuid():
        raise Unsafe(f"{folder} isn't used: it is {'a link or a file' if found.st_uid == os.geteuid() else 'of another user'} (XDG_CACHE_HOME can name another folder)")
    if found.st_mode & 0o022 and tightens:
        os.chmod(folder, stat.S_IMODE(found.st_mode) & ~0o022)
    elif found.st_mode & 0o022:
        raise Unsafe(f"{folder} isn't used: others may write to it (`chmod go-w`, or remove it)")
    return folder


def open_own(path, mode):
    """Opens a file of the cache that is the user's own, and no other one that a link leads to."""
    file = open(path, mode, encoding=None if "b" in mode else "utf-8", opener=lambda name, flags: os.open(name, flags | os.O_NOFOLLOW | os.O_NONBLOCK, 0o600))
    found = os.fstat(file.fileno())
    if found.st_uid != os.geteuid() or not stat.S_ISREG(found.st_mode):
        file.close()
        raise Unsafe(f"{path} isn't used: it is {'no file' if found.st_uid == os.geteuid() else 'of another user'}")
    return file


@contextlib.contextmanager
def locked(folder):
    """Holds the lock of a folder of the cache."""
    while True:
        path = os.path.join(own(folder), "lock")
        with open_own(path, "a") as file:
            fcntl.flock(file, fcntl.LOCK_EX)
            if is_at(file, path):
                yield
                return


def is_at(file, path):
    """Whether an open file is still the one at a path: another run may have removed the folder."""
    try:
        return os.path.samestat(os.fstat(file.fileno()), os.lstat(path))
    except FileNotFoundError:
        return False


@contextlib.contextmanager
def room(folder, prefix):
    """A folder for what is being made, which goes at the end. Those of runs that were killed go too."""
    remove_unheld(folder, prefix)
    place = tempfile.mkdtemp(prefix=prefix, dir=folder)
    try:
        with open_own(os.path.join(place, "lock"), "a") as file:
            fcntl.flock(file, fcntl.LOCK_EX)
            yield place
    finally:
        shutil.rmtree(place, ignore_errors=True)


def remove_unheld(folder, prefix):
    """Removes the rooms whose run has ended."""
    for name in os.listdir(folder):
        place = os.path.join(folder, name)
        if name.startswith(prefix) and not is_held(place):
            shutil.rmtree(place, ignore_errors=True)


def is_held(place):
    """Whether a run works in a room."""
    try:
        with open_own(os.path.join(place, "lock"), "r+") as file:
            fcntl.flock(file, fcntl.LOCK_EX | fcntl.LOCK_NB)
            return False
    except BlockingIOError:
        return True
    except OSError:
        # (it is made before its lock is)
        with contextlib.suppress(OSError):
            return time.time() - os.lstat(place).st_mtime < UNHELD
        return True
