"""What tests of scripts share: a folder of their own with the command bzlq on the PATH, and how what is found is compared with what is wanted."""
import contextlib
import importlib
import io
import os
import pty
import re
import shlex
import shutil
import subprocess
import sys
import tempfile
import traceback
from unittest import mock

# (also what bzlq imports only where it needs it: each call has it then)
from bzlq.cli import lint, subcommands  # noqa: F401
from bzlq.hints import report, sources  # noqa: F401
from bzlq.overlay import stubs  # noqa: F401

ROOT = os.path.dirname(os.path.dirname(os.path.dirname(os.path.realpath(__file__))))

# words of a call of bzlq for which no shell is needed: they are plain, or in quotes
WORDS = r"""((?: (?:'[^']*'|"[^"$`\\]*"|(?!-h |--help|--complete)[\w./:=@,+-]+))*)"""
# such a call, with what a shell runs before a pipe to it, where its outputs go, and what a shell runs after a pipe from it
CALL = re.compile(rf"(?:((?:2>&1|[^|;&])*) \| )?bzlq{WORDS}( 2>&1(?: >/dev/null)?)?(?: \| (.*))?")


def encoded(text):
    """The bytes of a text that was read."""
    return text.encode("utf-8", "surrogateescape")


class Bench:
    """A room, and how many comparisons were made and were wrong."""

    def __init__(self, program, room):
        self.room, self.count, self.wrong = room, 0, 0
        os.makedirs(f"{room}/bin", exist_ok=True)
        links = {"bin/bq": program, "bin/bzlq": f"{ROOT}/bzlq/__main__.py", **{it: f"{ROOT}/{it}" for it in ("tools", "bzlq", "examples")}}
        for name, to in links.items():
            if not os.path.lexists(f"{room}/{name}"):
                os.symlink(to, f"{room}/{name}")
        path = f"{room}/bin:{os.environ['PATH']}"
        # (what is compiled is of all rooms, where tests/scripts/run says so)
        compiled = os.environ.get("PYTHONPYCACHEPREFIX") or f"{room}/compiled"
        self.environment = {**os.environ, "PATH": path, "XDG_CACHE_HOME": f"{room}/cache", "PYTHONPYCACHEPREFIX": compiled}
        self.program = program
        self.environment["BZLQ_BQ"] = program

    def run(self, command, folder="", given=b""):
        """What bash writes to each output, and the status."""
        if not (found := CALL.fullmatch(command)):
            return self.by_shell(command, folder, given)
        before, words, to, after = found.groups()
        first = self.by_shell(before, folder, given) if before else ("", "", 0)
        output, errors, status = self.forked(shlex.split(words), f"{self.room}/{folder}", encoded(first[0]) if before else given, to == " 2>&1")
        if to and to != " 2>&1":
            output, errors = errors, ""
        last = self.by_shell(after, folder, encoded(output)) if after else (output, "", status)
        return last[0], first[1] + errors + last[1], last[2]

    def by_shell(self, command, folder, given):
        """The same, where nothing of it is run here."""
        ended = subprocess.run(["bash", "-c", command], input=given, cwd=f"{self.room}/{folder}", env=self.environment, capture_output=True, check=False)
        return ended.stdout.decode(errors="surrogateescape"), ended.stderr.decode(errors="surrogateescape"), ended.returncode

    def forked(self, words, folder, given, is_one=False):
        """The same of bzlq, in a copy of this process, which has its modules already: most of what a small call takes is to import them. `is_one` says
        whether both outputs are one file."""
        with contextlib.ExitStack() as stack:
            files = [stack.enter_context(tempfile.TemporaryFile()) for _ in range(3)]
            files[0].write(given)
            sys.stdout.flush()
            child = os.fork()
            if not child:
                self.call(words, folder, [*files[:2], files[1 if is_one else 2]])
            status = os.waitstatus_to_exitcode(os.waitpid(child, 0)[1])
            for file in files:
                file.seek(0)
            return *(it.read().decode(errors="surrogateescape") for it in files[1:]), status

    def on_terminal(self, words, folder="", given=b""):
        """What bzlq writes to a terminal, which is its input and both of its outputs; what is given is typed there."""
        terminal, other = pty.openpty()
        child = os.fork()
        if not child:
            os.close(terminal)
            self.call(words, f"{self.room}/{folder}", [open(other, "r+b", buffering=0, closefd=False)] * 3)
        os.close(other)
        if given:
            os.write(terminal, given)
        found = b""
        with contextlib.suppress(OSError):  # (the other end has closed)
            while part := os.read(terminal, 1 << 16):
                found += part
        os.close(terminal)
        return found, os.waitstatus_to_exitcode(os.waitpid(child, 0)[1])

    def call(self, words, folder, files):
        """Calls bzlq with these files for its input and its outputs, and ends the process."""
        status = 1
        try:
            with contextlib.suppress(OSError):
                files[0].seek(0)
            for number, file in enumerate(files):
                os.dup2(file.fileno(), number)
            sys.stdin = open(0, encoding="utf-8", errors="surrogateescape", closefd=False)
            sys.stdout, sys.stderr = (open(number, "w", encoding="utf-8", errors="surrogateescape", closefd=False) for number in (1, 2))
            os.chdir(folder)
            os.environ.clear()
            os.environ.update({**self.environment, "PWD": folder})
            sys.argv = ["bzlq", *words]
            status = subcommands.run(words)
        except SystemExit as ended:
            status = ended.code
        except BaseException:
            traceback.print_exc()
        finally:
            for file in (sys.stdout, sys.stderr):
                with contextlib.suppress(OSError):
                    file.flush()
            os._exit(status or 0)

    def compare(self, what, found, wanted):
        """Compares, and prints what differs."""
        self.count += 1
        if found != wanted:
            self.wrong += 1
            print(f"{what}:\n  is to give {wanted}\n  and gives  {found}")

    def lay_out(self, folder, files):
        """A folder with these files alone."""
        shutil.rmtree(f"{self.room}/{folder}", ignore_errors=True)
        for path, text in files.items():
            place = f"{self.room}/{folder}/{path}"
            os.makedirs(os.path.dirname(place), exist_ok=True)
            with open(place, "wb") as file:
                file.write(text if isinstance(text, bytes) else text.encode())

    def compare_calls(self, calls, place=""):
        """Compares what bzlq writes for each of (folder, words, output, status) or (folder, words, output, errors, status)."""
        for folder, words, *wanted in calls:
            found = self.run(f"bzlq {words}", f"{place}/{folder}")
            self.compare(f"{folder}$ bzlq {words}", found if len(wanted) == 3 else found[::2], tuple(wanted))

    def called(self, words, folder=""):
        """What a script writes to each output, and its status; it is called here, which takes less than a process of its own."""
        name, *rest = shlex.split(words)
        outputs = [io.TextIOWrapper(io.BytesIO(), encoding="utf-8", errors="surrogateescape") for _ in range(2)]
        before = os.getcwd()
        os.chdir(f"{self.room}/{folder}")
        with mock.patch.object(sys, "argv", [name, *rest]), mock.patch.dict(os.environ, self.environment), contextlib.redirect_stdout(outputs[0]), \
                contextlib.redirect_stderr(outputs[1]):
            try:
                status = importlib.import_module(f"bzlq.cli.{name}").main()
            except SystemExit as ended:
                status = ended.code
        os.chdir(before)
        for it in outputs:
            it.flush()
        return *(it.buffer.getvalue().decode("utf-8", "surrogateescape") for it in outputs), status or 0
