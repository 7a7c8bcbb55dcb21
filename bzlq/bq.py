"""Asks bq one query after another over a workspace that it has loaded once:

    from bzlq.bq import QueryError, Workspace

    with Workspace("examples/macros") as workspace:
        for label in workspace.query("rdeps(//..., //log:log.c)"):
            print(label)

A workspace is a directory or the file of a bundle. Its process is `bq --queries -`, which ends with the block, with `close`, or after a
ProcessError. Several threads may ask; they are answered in turn. `put(PATH, BYTES)` and `remove(PATH)` say what becomes of files, and
`reload()` loads the workspace with these edits, and returns its fault lines. `workspace.facts()`, or `facts(PLACE)` without such a process, has the
targets with their attributes and direct dependencies, the modules with their loads, and the faults. With `overlay=True` the directory is that
of a workspace with other repositories, which is read as bzlq reads it; bzlq has to be beside this file then, or on the PATH. Else this file
needs Python 3.10 or later, and no other file: copy it to where you want it. docs/TOOLS.md says more.
"""
import contextlib
import io
import json
import os
import re
import select
import shutil
import signal
import subprocess
import sys
import threading
import time
from collections.abc import Callable, Iterable, Iterator, Mapping, Sequence
from dataclasses import dataclass, field
from typing import TypeVar

HERE = os.path.dirname(os.path.realpath(__file__))
# the folder in which share/bq/bzlq is, where this is installed; else the folders above may be other users'
PREFIX = HERE.removesuffix("/share/bq/bzlq")
INSTALLED = (f"{PREFIX}/lib/bq/bq", f"{PREFIX}/bin/bq") if PREFIX != HERE else ()
# where the program is: built in the repository, unpacked there from dist/, beside the tools in a tarball, or installed with them
PROGRAMS = (f"{HERE}/../crates/bq/out/bq", f"{HERE}/../crates/bq/out/dist/bq", f"{HERE}/../bq", *INSTALLED, "/usr/bin/bq")
# lines that bq writes to standard error
FAULT = re.compile(r"(?P<label>(?:@[^/]*)?//[^:]*:[^:]*):(?P<line>\d+): (?P<number>F\d+) (?P<name>\w+) ?(?P<detail>.*)")
ERROR = re.compile(r"bq: (?P<number>[QE]\d) (?P<name>\w+) ?(?P<detail>.*)")
# the line before each answer
HEADER = re.compile(rb"=== (?P<status>[023]) (?P<count>\d{1,18}) (?P<query>.*)", re.DOTALL)
# a header has no more of a query
MAX_QUERY_BYTES = 1 << 20
# and a file that is put has no more
MAX_FILE_BYTES = 1 << 30
# a path in a workspace: segments of printable ASCII without `:` and the backslash, none of them `.` or `..`
SEGMENT = r"(?!\.{1,2}(?:/|\Z))[ -.0-9;-\[\]-~]+"
PATH = re.compile(f"{SEGMENT}(?:/{SEGMENT})*")
# what a query isn't, since bq takes it for a command
COMMAND = re.compile(r"=== (?:put |remove |facts |(?:facts|reload)\Z)")
# what bzlq says of a bundle that it has made
LARGE = "bq reads a bundle of this size with --large"
# and what it says while it makes one
READING = "reading the workspace"
# a query that is answered once the workspace is loaded
NOTHING = b"set()"
# commands that are answered: by the faults, and by the facts
RELOAD, FACTS = b"=== reload", b"=== facts"
# the formats of facts that are read here; the first, up to bq 1.5, has no first line and no names
FORMATS = (1, 2)
# how many bytes are read at once
SHARE = 1 << 18
# how long a process may take to end by itself, in seconds
PATIENCE = 2.0


Answer = TypeVar("Answer")


class BqError(Exception):
    """What goes wrong with a workspace or a query."""


class BadQuery(BqError, ValueError):
    """A text that can't be asked, since it isn't one line with a query; it wasn't asked."""


class NumberedError(BqError):
    """An error of bq's, as Q5 NoSuchTarget //a:none; `bq --explain NUMBER` says what it means."""

    def __init__(self, number: str, word: str, detail: str = "") -> None:
        super().__init__(number, word, detail)
        self.number, self.word, self.detail = number, word, detail

    def __str__(self) -> str:
        return " ".join(filter(None, (self.number, self.word, self.detail)))


class QueryError(NumberedError):
    """A query was refused. Others can be asked after it."""


class BadPath(BqError, ValueError):
    """A text that is no path in a workspace, or a file that is too large for one; nothing was put or removed."""


class RunRefused(NumberedError):
    """A reload was refused, as E4 Bundle or E6 Schema 3. The workspace is as it was before, and may be reloaded after more edits."""


class ProcessError(BqError):
    """The process can't be started, has ended, or was ended; the message says why."""


class RunError(NumberedError, ProcessError):
    """The process has ended with an error of the run, as E2 Read or E6 Schema."""


class QueryTimeout(ProcessError, TimeoutError):
    """The workspace wasn't loaded, or a query not answered, in time. The process was ended, if it wasn't busy for other threads."""


class NoProgram(ProcessError):
    """There is no bq."""


def program_of(given: str = "") -> str:
    """The path of bq: the one that is given, else the one that the variable BZLQ_BQ names, else the first that is there."""
    named = given or os.environ.get("BZLQ_BQ", "")
    for path in [named] if named else PROGRAMS:
        if os.path.isfile(path) and os.access(path, os.X_OK) and (named or is_program(path)):
            return os.path.abspath(path)
    if named or not os.path.isfile(f"{HERE}/../dist/SHA256SUMS"):
        raise NoProgram(f"no program {named}" if named else "there is no bq: the variable BZLQ_BQ can name it")
    # (in a clone, whose dist/ has the program)
    sys.path.append(f"{HERE}/..")
    from bzlq.facts import program
    try:
        return program.unpack()
    except (program.NotUnpacked, OSError) as error:
        raise NoProgram(f"{error}") from None


def is_program(path: str) -> bool:
    """Whether this is a program, and not the script ./bq, which may prove and build it first."""
    with open(path, "rb") as file:
        return file.read(4) == b"\x7fELF"


def text_of(line: bytes) -> str:
    """A line as a text; bytes that are no UTF-8 stand for themselves."""
    return line.decode("utf-8", "surrogateescape")


def bytes_of(query: str) -> bytes:
    """A query as bq reads it."""
    if "\n" in query or "\r" in query:
        raise BadQuery("a query is one line, and this text has a line break")
    if not query.strip():
        raise BadQuery("a query can't be empty")
    if query.startswith("#"):
        raise BadQuery("a line that begins with # is a comment, and no query")
    if COMMAND.match(query):
        raise BadQuery("a line as this one is a command, and no query: there are put, remove, reload and facts for them")
    try:
        return query.encode("utf-8", "surrogateescape")
    except UnicodeEncodeError as error:
        raise BadQuery(f"a query is written as UTF-8, which has no bytes for {query[error.start]!r}") from None


def path_bytes(path: str) -> bytes:
    """A path as bq reads it. The same paths are valid as in a bundle."""
    if not PATH.fullmatch(path):
        raise BadPath(f"{path!r} is not a path in a workspace")
    return path.encode("ascii")


def edit_of(path: str, content: bytes | None) -> bytes:
    """The command that puts a file, or removes it where it has no content."""
    if content is None:
        return b"=== remove %s\n" % path_bytes(path)
    if len(content) > MAX_FILE_BYTES:
        raise BadPath(f"{path} has {len(content)} bytes, and a workspace has at most {MAX_FILE_BYTES}")
    return b"=== put %d %s\n%s\n" % (len(content), path_bytes(path), content)


def ended_by(program: str, status: int, errors: list[str], word: str) -> ProcessError:
    """What a process of bq ended with: by its status, and the lines that it wrote to standard error. `word` is the one that it was given."""
    error = ERROR.fullmatch(errors[-1]) if errors else None
    if error and error["number"].startswith("E"):
        return RunError(error["number"], error["name"], error["detail"])
    if any(f"'{word}'" in line for line in errors):
        return ProcessError(f"{program} is too old: it has no {word}")
    how = f"with status {status}" if status >= 0 else f"by signal {-status} ({signal.strsignal(-status)})"
    return ProcessError(": ".join([f"bq has ended {how}", *errors[:1]]))


def unblocked(pipe: object) -> io.FileIO:
    """A pipe, from now on one whose reads and writes don't wait."""
    assert isinstance(pipe, io.FileIO)
    os.set_blocking(pipe.fileno(), False)
    return pipe


def is_ready(pipe: io.FileIO, event: int, seconds: float | None) -> bool:
    """Waits until something can be read from a pipe, or written to it, or its other end is closed. Without seconds it waits on and on."""
    poll = select.poll()
    poll.register(pipe, event)
    return bool(poll.poll(None if seconds is None else min(seconds * 1000, 2_000_000_000)))


def divided(lines: list[str]) -> tuple[list[str], list[str]]:
    """What files print, and the fault lines, which come after it."""
    first = len(lines)
    while first and FAULT.fullmatch(lines[first - 1]):
        first -= 1
    return lines[:first], lines[first:]


def where_of(place: str) -> tuple[list[str], str | None]:
    """The words that name a directory or a bundle, and the folder in which bq is run with them."""
    if not os.path.exists(place):
        raise ProcessError(f"there is no directory or bundle {place}")
    return (["--dir", "."], place) if os.path.isdir(place) else (["--bundle", os.path.abspath(place)], None)


def with_overlay(root: str, program: str) -> tuple[str, bool, list[str]]:
    """The bundle that bzlq keeps of a workspace, made fresh, whether bq reads it with --large, and what else bzlq says of it."""
    beside = f"{HERE}/__main__.py"
    bzlq = [sys.executable, beside] if os.path.isfile(beside) else [shutil.which("bzlq") or ""]
    if not bzlq[0]:
        raise ProcessError("there is no bzlq, which makes overlays, beside bq.py or on the PATH")
    try:
        ended = subprocess.run([*bzlq, "--bundle-path", "--program", os.path.abspath(program)], cwd=root, capture_output=True, check=False)
    except OSError as error:
        raise ProcessError(f"{error.filename or bzlq[-1]}: {error.strerror}") from error
    lines = text_of(ended.stderr).splitlines()
    if ended.returncode:
        raise ProcessError(lines[-1] if lines else f"bzlq has ended with status {ended.returncode}")
    large, no_warnings = f"bzlq: {LARGE}", (f"bzlq: {LARGE}", f"bzlq: {READING}")
    return text_of(ended.stdout).removesuffix("\n"), large in lines, [it for it in lines if it not in no_warnings]


def options_of(jobs: int | None, max_steps: int | None, large: bool) -> list[str]:
    """The options of bq that are given."""
    given = {"--jobs": jobs, "--max-steps": max_steps}
    return [f"{word}={value}" for word, value in given.items() if value is not None] + (["--large"] if large else [])


class Deadline:
    """The moment by which something has to be done."""

    def __init__(self, seconds: float | None, what: str) -> None:
        self.seconds, self.what = seconds, what
        self.moment = None if seconds is None else time.monotonic() + seconds

    def left(self) -> float | None:
        """The seconds until then."""
        return None if self.moment is None else max(0.0, self.moment - time.monotonic())

    def wait(self, pipe: io.FileIO, event: int) -> None:
        """Waits until a pipe is ready; raises `QueryTimeout` where that takes too long."""
        if not is_ready(pipe, event, self.left()):
            raise self.error()

    def error(self) -> QueryTimeout:
        """What is raised where it took too long."""
        return QueryTimeout(f"bq hasn't {self.what} in {self.seconds:g} s")


class Errors:
    """What a process writes to standard error. A thread reads it, so that the process never waits for a reader."""

    def __init__(self, pipe: io.FileIO) -> None:
        self._pipe, self._text, self._lock = pipe, bytearray(), threading.Lock()
        self._thread = threading.Thread(target=self._read, daemon=True)
        self._thread.start()

    def _read(self) -> None:
        while self._take():
            is_ready(self._pipe, select.POLLIN, None)

    def _take(self) -> bool:
        """Takes what was written by now. Returns whether there may be more to come."""
        with self._lock:
            while text := self._pipe.read(SHARE):
                self._text += text
            return text is None

    def lines(self) -> list[str]:
        """The lines that were written since this was asked last."""
        self._take()
        with self._lock:
            text = text_of(bytes(self._text))
            self._text.clear()
        return text.removesuffix("\n").split("\n") if text else []

    def close(self) -> None:
        """Ends the thread, once the process has ended."""
        self._thread.join(PATIENCE)
        if not self._thread.is_alive():
            self._pipe.close()


class Workspace:
    """A workspace that a process of bq has loaded: a directory, or the file of a bundle.

    Options: the program (else program_of says which), those of bq, and how many seconds the loading and each query may take; without a
    number they may take any time. With an overlay `large` is found out. `faults` are the fault lines, `printed` the lines that files print, and `warnings` what bzlq says of an
    overlay: of calls that declare nothing over it.
    """

    def __init__(self, place: str | os.PathLike[str], *, overlay: bool = False, program: str = "", output: str = "label",
                 jobs: int | None = None, max_steps: int | None = None, large: bool = False, load_timeout: float | None = None,
                 timeout: float | None = None) -> None:
        self.program, self.timeout = program_of(program), timeout
        self.warnings: list[str] = []
        if overlay:
            place, is_large, self.warnings = with_overlay(os.fspath(place), self.program)
            large = large or is_large
        self._lock, self._rest = threading.Lock(), b""
        self._gone: ProcessError | None = None
        self._place, self._options, self._is_edited = os.fspath(place), options_of(jobs, max_steps, large), False
        self._start([f"--output={output}", *self._options])
        status, _ = self._answer(NOTHING, Deadline(load_timeout, "loaded the workspace"))
        lines = self._errors.lines()
        self.printed, self.faults = divided(lines) if status == b"3" else (lines, [])

    def __enter__(self) -> "Workspace":
        return self

    def __exit__(self, *_: object) -> None:
        self.close()

    def query(self, query: str, timeout: float | None = None) -> list[str]:
        """The labels that a query stands for, in order; with output="label_kind" the lines with kinds and labels. Bytes that are no UTF-8
        stand for themselves by surrogateescape, both ways."""
        text, deadline = bytes_of(query), Deadline(self.timeout if timeout is None else timeout, f"answered {query[:200]}")
        _, lines = self._in_turn(lambda: self._answer(text, deadline), deadline)
        return [text_of(line) for line in lines]

    def facts(self, query: str = "", timeout: float | None = None, *, as_loaded: bool = False) -> "Facts":
        """The facts behind a query, or behind all of the workspace, as it is now: they come from a run of their own. Once something was put or
        removed, and with `as_loaded`, they are those of the workspace as it was loaded last."""
        seconds = self.timeout if timeout is None else timeout
        if not self._is_edited and not as_loaded:
            return run_facts(self.program, self._place, query, self._options, seconds)
        line, deadline = FACTS + (b" " + bytes_of(query) if query else b""), Deadline(seconds, f"told the facts of {query[:200]}")
        return self._in_turn(lambda: self._told(line, deadline), deadline)

    def put(self, path: str, content: bytes, timeout: float | None = None) -> None:
        """Says what file is at a path of the workspace from the next reload on."""
        self.edit({path: content}, timeout)

    def remove(self, path: str, timeout: float | None = None) -> None:
        """Says that there is no file at a path of the workspace from the next reload on."""
        self.edit({path: None}, timeout)

    def edit(self, files: Mapping[str, bytes | None], timeout: float | None = None) -> None:
        """Puts files, and removes those without content, all of them or none."""
        text, deadline = b"".join(edit_of(*it) for it in files.items()), Deadline(self.timeout if timeout is None else timeout, "read the files")
        self._in_turn(lambda: self._say(text, deadline), deadline)

    def reload(self, timeout: float | None = None) -> list[str]:
        """Loads the workspace with all that was put and removed, a directory as it is by then. Returns its fault lines, which are `faults` from now on, as are the lines
        that files print `printed`. Where it is refused (E4, E6, E7) a RunRefused is raised, and all stays as it was."""
        deadline = Deadline(self.timeout if timeout is None else timeout, "loaded the workspace again")

        def ask() -> list[str]:
            status, lines = self._commanded(RELOAD, deadline)
            texts = [text_of(line) for line in lines]
            self.printed, self.faults = divided(texts) if status == b"3" else (texts, [])
            return self.faults

        return self._in_turn(ask, deadline)

    def approximations(self, query: str, timeout: float | None = None) -> list[str]:
        """The targets of an answer of which something was made up or left out, where the workspace is read with an overlay."""
        return self.query(f'attr(bzlq_lost, "[a-z]", {query})', timeout)

    def close(self) -> None:
        """Ends the process. A query that another thread waits for ends with an error."""
        why = self._gone or ProcessError("the workspace is closed")
        if not self._lock.acquire(blocking=False):
            self._gone = why
            self._process.kill()
            self._lock.acquire()
        try:
            self._end(why, PATIENCE)
        finally:
            self._lock.release()

    def _in_turn(self, ask: Callable[[], Answer], deadline: Deadline) -> Answer:
        """Asks once no other thread does."""
        left = deadline.left()
        if not self._lock.acquire(timeout=-1 if left is None else min(left, threading.TIMEOUT_MAX)):
            raise deadline.error()
        try:
            if self._gone:
                raise self._gone.with_traceback(None)
            return ask()
        finally:
            self._lock.release()

    @contextlib.contextmanager
    def _or_ended(self) -> Iterator[None]:
        """Ends the process if anything but a refusal breaks off what is asked: more of an answer may come, or less was said than meant."""
        try:
            yield
        except QueryError:
            raise
        except ProcessError as error:
            self._end(error)
            raise
        except BaseException:
            self._end(ProcessError("the process was ended, since a query was interrupted"))
            raise

    def _say(self, text: bytes, deadline: Deadline) -> None:
        """Writes what has no answer."""
        with self._or_ended():
            self._write(text, deadline)
        self._is_edited = True

    def _told(self, line: bytes, deadline: Deadline) -> "Facts":
        """The facts that a command asks for."""
        lines = self._commanded(line, deadline)[1]
        try:
            return Facts.of_lines(lines)
        except (ValueError, KeyError, TypeError):
            raise ProcessError(f"{self.program} doesn't tell facts as bq does") from None

    def _commanded(self, command: bytes, deadline: Deadline) -> tuple[bytes, list[bytes]]:
        """The answer to a command. A process that takes it for a query has taken all that was put for queries too, so it is ended."""
        try:
            return self._answer(command, deadline)
        except QueryError as error:
            if error.number.startswith("E"):
                raise RunRefused(*error.args) from None
            if command not in (RELOAD, FACTS):
                raise
        why = ProcessError(f"{self.program} is too old: it has no edits")
        self._end(why)
        raise why

    def _start(self, options: list[str]) -> None:
        where, folder = where_of(self._place)
        command, pipe = [self.program, *options, *where, "--queries", "-"], subprocess.PIPE
        try:
            self._process = subprocess.Popen(command, cwd=folder, bufsize=0, stdin=pipe, stdout=pipe, stderr=pipe)
        except OSError as error:
            raise ProcessError(f"{error.filename or self.program}: {error.strerror}") from error
        self._input, self._output = unblocked(self._process.stdin), unblocked(self._process.stdout)
        self._errors = Errors(unblocked(self._process.stderr))

    def _answer(self, query: bytes, deadline: Deadline) -> tuple[bytes, list[bytes]]:
        """The status of a query, and the lines of its answer."""
        with self._or_ended():
            self._write(query + b"\n", deadline)
            return self._block(query, deadline)

    def _write(self, text: bytes, deadline: Deadline) -> None:
        left = memoryview(text)
        while left:
            deadline.wait(self._input, select.POLLOUT)
            try:
                left = left[self._input.write(left) or 0:]
            except BrokenPipeError:
                raise self._why() from None

    def _block(self, query: bytes, deadline: Deadline) -> tuple[bytes, list[bytes]]:
        """Reads a header line, and as many lines as it says."""
        header = self._lines(1, deadline)[0]
        found = HEADER.fullmatch(header)
        if not found or found["query"] != query[:MAX_QUERY_BYTES]:
            raise ProcessError(f"{self.program} doesn't answer as bq does: {text_of(header[:200])}")
        lines = self._lines(int(found["count"]), deadline)
        if found["status"] != b"2":
            return found["status"], lines
        error = ERROR.fullmatch(text_of(b"\n".join(lines)))
        if not error:
            raise ProcessError(f"{self.program} doesn't refuse a query as bq does")
        raise QueryError(error["number"], error["name"], error["detail"])

    def _lines(self, count: int, deadline: Deadline) -> list[bytes]:
        """Reads as many lines."""
        parts, found = [self._rest], self._rest.count(b"\n")
        while found < count:
            deadline.wait(self._output, select.POLLIN)
            part = self._output.read(SHARE)
            if part == b"":
                raise self._why()
            parts.append(part or b"")
            found += parts[-1].count(b"\n")
        *lines, self._rest = b"".join(parts).split(b"\n", count)
        return lines

    def _why(self) -> ProcessError:
        """Why the process has ended: by its status, and what it has written since the workspace was loaded."""
        if self._gone:
            return self._gone
        try:
            status = self._process.wait(PATIENCE)
        except subprocess.TimeoutExpired:
            return ProcessError("bq has closed its output")
        return ended_by(self.program, status, self._errors.lines(), "--queries")

    def _end(self, why: ProcessError, patience: float = 0) -> None:
        """Ends the process, at once or as soon as it sees that there are no more queries; from then on each query has this error."""
        self._gone = why
        self._input.close()
        try:
            self._process.wait(patience)
        except subprocess.TimeoutExpired:
            self._process.kill()
            self._process.wait()
        self._output.close()
        self._errors.close()


@dataclass(frozen=True)
class Target:
    """A target. A source file has neither line nor attributes, names nor dependencies. The line is that of the statement which declares it. Names
    are the labels that it names, whether these are targets or not; None where a bq up to 1.5 has told the facts, which don't have them then."""

    label: str
    kind: str
    file: str
    line: int = 0
    attributes: Mapping[str, str | int | bool | list[str]] = field(default_factory=dict)
    deps: Sequence[str] = ()
    names: Sequence[str] | None = ()

    @property
    def lost(self) -> Sequence[str]:
        """What was made up or left out of it in an overlay, each text with a word and a colon before it."""
        found = self.attributes.get("bzlq_lost")
        return found if isinstance(found, list) else []


@dataclass(frozen=True)
class Load:
    """A load of a module: what it loads, its line, and the symbols by the names that they get."""

    label: str
    file: str
    line: int
    symbols: Mapping[str, str]


@dataclass(frozen=True)
class Module:
    """A BUILD file, or a .bzl file that is loaded."""

    label: str
    file: str
    loads: Sequence[Load]


@dataclass(frozen=True)
class Fault:
    """A fault line."""

    number: str
    name: str
    label: str
    file: str
    line: int
    detail: str

    def __str__(self) -> str:
        return " ".join(filter(None, (f"{self.file}:{self.line}:", self.number, self.name, self.detail)))


@dataclass(frozen=True)
class Facts:
    """What is behind an answer: the targets and the modules by their labels, in order, and the faults; and what the first line says: the version
    of bq, and the limits of the run. Both are empty where a bq up to 1.5 has told the facts."""

    targets: dict[str, Target] = field(default_factory=dict)
    modules: dict[str, Module] = field(default_factory=dict)
    faults: list[Fault] = field(default_factory=list)
    packages: dict[str, dict] = field(default_factory=dict)  # what calls of package(..) say, of bzlq --facts

    version: str = ""
    limits: Mapping[str, int] = field(default_factory=dict)

    @staticmethod
    def of_lines(lines: Iterable[bytes]) -> "Facts":
        """The facts that these lines of `bq --facts` tell."""
        parsed = map(json.loads, lines)
        first = next(parsed, None)
        if first is None or "facts" not in first:
            # (of a bq up to 1.5)
            found = Facts()
            for told in [first, *parsed] if first else []:
                found.add({**told, "names": None})
            return found
        if first["facts"] not in FORMATS:
            raise ProcessError(f"the facts are of format {first['facts']}, and bq.py reads {' and '.join(map(str, FORMATS))}")
        found = Facts(version=first["version"], limits=first["limits"])
        for told in parsed:
            found.add(told)
        found.hold_to(first)
        return found

    def hold_to(self, first: dict) -> None:
        """Refuses facts that aren't as many as the first line says, since the text was cut off."""
        for what, there in (("targets", self.targets), ("modules", self.modules), ("faults", self.faults)):
            if len(there) != first[what]:
                raise ProcessError(f"the facts were cut off: they have {len(there)} of {first[what]} {what}")

    def add(self, told: dict) -> None:
        """Adds what a line of facts says."""
        if "target" in told:
            more = (told["line"], told["attributes"], told["deps"], told["names"]) if "line" in told else ()
            self.targets[told["target"]] = Target(told["target"], told["kind"], told["file"], *more)
        elif "package" in told:
            self.packages[told["package"]] = told
        elif "module" in told:
            loads = [Load(it["label"], it["file"], it["line"], it["symbols"]) for it in told["loads"]]
            self.modules[told["module"]] = Module(told["module"], told["file"], loads)
        else:
            self.faults.append(Fault(told["fault"], told["name"], told["label"], told["file"], told["line"], told["detail"]))


def facts(place: str | os.PathLike[str] | io.BufferedReader, query: str = "", *, overlay: bool = False, program: str = "",
          jobs: int | None = None, max_steps: int | None = None, large: bool = False, timeout: float | None = None) -> Facts:
    """The facts behind a query, or behind all of the workspace: a directory, the file of a bundle, or a bundle that is open; with `overlay`
    a directory as bzlq reads it."""
    if overlay and not isinstance(place, io.BufferedReader):
        place, is_large, _ = with_overlay(os.fspath(place), program_of(program))
        large = large or is_large
    return run_facts(program_of(program), place if isinstance(place, io.BufferedReader) else os.fspath(place), query,
                     options_of(jobs, max_steps, large), timeout)


def run_facts(program: str, place: str | io.BufferedReader, query: str, options: list[str], timeout: float | None) -> Facts:
    """Runs `bq --facts`, and reads what it writes."""
    stdin, (where, folder) = (place, ([], None)) if isinstance(place, io.BufferedReader) else (subprocess.DEVNULL, where_of(place))
    command = [program, *options, *where, "--facts", *(["--", bytes_of(query)] if query else [])]
    try:
        ended = subprocess.run(command, cwd=folder, stdin=stdin, capture_output=True, timeout=timeout, check=False)
    except subprocess.TimeoutExpired:
        raise QueryTimeout(f"bq has not told the facts in {timeout} seconds") from None
    except OSError as error:
        raise ProcessError(f"{error.filename or program}: {error.strerror}") from error
    if ended.returncode in (0, 3):
        try:
            return Facts.of_lines(ended.stdout.splitlines())
        except (ValueError, KeyError, TypeError):
            raise ProcessError(f"{program} doesn't tell facts as bq does") from None
    errors = text_of(ended.stderr).removesuffix("\n").split("\n")
    error = ERROR.fullmatch(errors[-1])
    if error and error["number"].startswith("Q"):
        raise QueryError(error["number"], error["name"], error["detail"])
    raise ended_by(program, ended.returncode, errors, "--facts")
