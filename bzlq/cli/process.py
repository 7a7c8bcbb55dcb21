"""How a script ends: takes the function that does its work, writes what it has to say, gives the status.

What goes wrong is said in one sentence. A signal that ends the process runs what cleans up, and leaves no traceback. A control byte is
written as `\\x1b` where output is a terminal, so that no file or label of a workspace moves the cursor there.
"""
import contextlib
import os
import re
import resource
import signal
import sys
import threading
import traceback

from bzlq.bq import BqError, RunError
from bzlq.workspace.files import Refused

STATUSES = {"E1": 4, "E2": 5, "E3": 5}
# what a terminal may take for a command: control bytes but for the newline and the tab, bytes that are no UTF-8, and what turns the direction of a line
CONTROL = re.compile("[\x00-\x08\x0b-\x1f\x7f-\x9f\udc80-\udcff\u061c\u200e\u200f\u2028-\u202e\u2066-\u2069]")
# how deep functions may call one another, and how many bytes of the stack that takes for each at most
DEPTH, FRAME = 8000, 1024
ENDING = (signal.SIGTERM, signal.SIGHUP)


class Unwritten(Exception):
    """Standard output can't be written; the message says why."""


class Signalled(BaseException):
    """A signal that ends the process."""


def plain(text):
    """A text for a terminal."""
    return CONTROL.sub(lambda found: escape_of(ord(found[0])), text)


def escape_of(code):
    """What is written for a character: `\\x1b` for a control byte, and for a byte that is no UTF-8."""
    return f"\\x{code & 0xff:02x}" if code < 0x100 or 0xdc80 <= code <= 0xdcff else f"\\u{code:04x}"


def write(lines, to):
    """Writes lines to standard output or standard error."""
    write_text("".join(f"{line}\n" for line in lines), to)


def write_text(text, to):
    """Writes a text to standard output or standard error."""
    write_bytes(text.encode("utf-8", "surrogateescape"), to)


def write_bytes(text, to):
    """Writes bytes to standard output or standard error."""
    try:
        to.buffer.write(plain(text.decode("utf-8", "surrogateescape")).encode("utf-8") if to.isatty() else text)
        to.flush()
    except BrokenPipeError:
        raise
    except OSError as error:
        raise Unwritten(f"standard {'output' if to is sys.stdout else 'error'}: {error.strerror}") from error


class Output:
    """Standard output or standard error as a file that takes bytes: for a terminal each line without control bytes."""

    def __init__(self, to):
        self.to, self.is_terminal, self.rest = to, to.isatty(), b""

    def write(self, text):
        """Writes bytes; a line for a terminal once it is whole."""
        if not self.is_terminal:
            self.to.buffer.write(text)
            return
        *lines, self.rest = (self.rest + text).split(b"\n")
        write_bytes(b"".join(line + b"\n" for line in lines), self.to)

    def flush(self):
        """Writes what is left."""
        rest, self.rest = self.rest, b""
        write_bytes(rest, self.to)


@contextlib.contextmanager
def signals():
    """Has a signal that ends the process raise `Signalled`, so that what is left behind is removed first."""
    if threading.current_thread() is not threading.main_thread():
        yield
        return

    def end(number, _):
        raise Signalled(number)

    # (one that is ignored, as in a shell's background, stays so)
    before = {it: signal.getsignal(it) for it in (*ENDING, signal.SIGINT) if signal.getsignal(it) is not signal.SIG_IGN}
    for number in before:
        signal.signal(number, signal.default_int_handler if number == signal.SIGINT else end)
    try:
        yield
    finally:
        for number, handler in before.items():
            signal.signal(number, handler)


def ended(script, name=""):
    """Runs a script, which is a function of its name, and says in a sentence what it can't do; gives the status."""
    name = name or os.path.basename(sys.argv[0])
    sys.setrecursionlimit(depth())
    try:
        with signals():
            return script(name)
    except BrokenPipeError:
        os._exit(5)
    except Unwritten as error:
        # (what is left in the buffer would be written again at the end)
        os.write(2, f"{name}: {error}\n".encode("utf-8", "surrogateescape"))
        os._exit(5)
    except KeyboardInterrupt:
        return 130
    except Signalled as error:
        signal.signal(error.args[0], signal.SIG_DFL)
        os.kill(os.getpid(), error.args[0])
    except (BqError, Refused) as error:
        write([f"{name}: {error}"], sys.stderr)
        return STATUSES.get(error.number, 2) if isinstance(error, RunError) else 2
    except OSError as error:
        write([f"{name}: " + ": ".join(filter(None, (error.filename and os.fsdecode(error.filename), error.strerror or str(error))))], sys.stderr)
        return 2
    except (RecursionError, MemoryError):
        write([f"{name}: a file nests too deep to be read here"], sys.stderr)
        return 2
    except Exception as error:
        write([f"{name}: an error of {name} itself, {type(error).__name__} {place_of(error)}: {error}"], sys.stderr)
        return 2


def depth():
    """How deep functions may call one another on this stack."""
    size, _ = resource.getrlimit(resource.RLIMIT_STACK)
    return DEPTH if size == resource.RLIM_INFINITY else max(1000, min(DEPTH, size // FRAME))


def place_of(error):
    """Where in these scripts an error came from."""
    at = traceback.extract_tb(error.__traceback__)[-1]
    return f"at {os.path.basename(at.filename)}:{at.lineno}"
