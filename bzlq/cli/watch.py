"""Answers a query after each change of the workspace: bzlq watch [OPTION ..] QUERY

    $ bzlq watch 'rdeps(//..., //log:log.c)'
    //app:app
    //log:log
    + //app:app_test
    - //log:log

First comes the answer, as of bzlq QUERY; then, after each change of the files, a line with + for each new line of the answer, and one with - for each
that is gone. Standard error gets the time of each change, new fault lines, what the answer may lack, why the query can't be answered at the moment,
if so, and how changes are noticed: by inotify, or by looking at the files again and again. It takes the options of a query, such as --output
location, and ends with Ctrl-C.

Status: 2 if the query can't be answered at first; else that of the signal that ends it, 130 after Ctrl-C.
"""
import sys
import time

from bzlq.bq import BqError, NumberedError, ProcessError, program_of
from bzlq.cli.answer import Answer
from bzlq.cli.changes import Changes
from bzlq.cli.options import Call
from bzlq.cli.process import STATUSES, write
from bzlq.facts.loaded import Loaded, path_of
from bzlq.overlay.approximations import Ended, Queries
from bzlq.overlay.assembly import MAX_STEPS
from bzlq.workspace.files import Refused


class Following(Answer):
    """The answers to a query, by a process that follows the files."""

    def __init__(self, call):
        super().__init__(call, program_of(call.values.get("--program", "")))
        self.loaded = Loaded(self.program, output=call.values.get("--output", "label"), jobs=call.values.get("--jobs"),
                             max_steps=call.values.get("--max-steps", MAX_STEPS))

    def ask(self, bundle, more):
        """Asks for the answer, and for more, once the process has loaded the files as they are."""
        told, queries = b"", Queries(self.query, path_of(bundle))
        try:
            self.loaded.take(path_of(bundle))
            workspace = self.loaded.workspace
            told = encoded([*workspace.printed, *workspace.faults])
            answer, *others = [encoded(workspace.query(it)) for it in [*queries.all, *more]]
        except (NumberedError, ProcessError) as error:
            if isinstance(error, ProcessError):
                self.loaded.close()  # (the next change starts another one)
            if not isinstance(error, NumberedError):
                raise
            return Ended(b"", told + encoded([f"bq: {error}"]), STATUSES.get(error.number, 2)), None, []
        counts = [text.count(b"\n") for text in (answer, *others)][:len(queries.all)]
        further = [(0, text.splitlines(keepends=True)) for text in others[len(queries.all) - 1:]]
        return Ended(answer, told, 3 if workspace.faults else 0), queries.lost(counts, self.loaded.targets), further


def encoded(lines):
    """Lines as bq writes them."""
    return "".join(f"{it}\n" for it in lines).encode("utf-8", "surrogateescape")


class Watch:
    """The last answer, by its lines, and what was said last: of faults, of what the workspace lacks, and of what was made up or left out of the answer."""

    def __init__(self, call):
        self.answer = Following(call)
        self.lines, self.faults, self.warnings, self.lost = None, [], [], []

    def ask(self):
        """Asks once, and writes what is new; gives the status."""
        bundle, warnings = self.answer.kept.open()
        with bundle:
            ended, text, found = self.answer.asked(bundle)
            faults = self.answer.explained(ended)
        is_answered = ended.returncode in (0, 3)
        lost = list(found.lines()) if found else [] if is_answered else self.lost
        if is_answered:
            self.tell(text.decode("utf-8", "surrogateescape").splitlines())
        self.answer.tell([it for it in faults if it not in self.faults], [it for it in warnings if it not in self.warnings], found if lost != self.lost else None)
        gone = ["there are no faults any more"] if is_answered and self.faults and not faults else []
        gone += ["nothing of this answer is made up or left out any more"] if self.lost and not lost else []
        write([f"bzlq: {it}" for it in gone], sys.stderr)
        self.faults, self.warnings, self.lost = faults, warnings, lost
        return 0 if is_answered else 2

    def tell(self, lines):
        """Writes an answer: the first one as a whole, of a later one what came and what went."""
        before, self.lines = self.lines, lines
        if before is None:
            write(lines, sys.stdout)
            write([f"bzlq: {len(lines)} line{'s' * (len(lines) != 1)}; what changes comes below (Ctrl-C ends this)"], sys.stderr)
            return
        came, went = set(lines) - set(before), set(before) - set(lines)
        if came or went:
            write([f"bzlq: {time.strftime('%H:%M:%S')}: {len(came)} came, {len(went)} went, {len(lines)} in all"], sys.stderr)
            marks = {**dict.fromkeys(went, "-"), **dict.fromkeys(came, "+")}
            write([f"{marks[it]} {it}" for it in dict.fromkeys([*before, *lines]) if it in marks], sys.stdout)


def watch(words):
    """Answers a query after each change; gives the status."""
    call = Call(words)
    if not call.queries or {"--bundle-path", "--clean", "--version", "--facts"} & call.flags or {"--queries", "--explain"} & call.values.keys() or call.raw:
        raise Refused("watch takes a query, and options of its answer")
    watched = Watch(call)
    changes, how = Changes(watched.answer.root), ""
    try:
        if status := watched.ask():
            return status
        while True:
            if changes.how() != how:
                how = changes.how()
                write([f"bzlq: watching {watched.answer.root} {how}"], sys.stderr)
            changes.wait()
            try:
                watched.ask()
            except (Refused, BqError, FileNotFoundError) as error:
                # (files may come and go while they are read; the next change asks again)
                write([f"bzlq: {error}"], sys.stderr)
    finally:
        changes.close()
        watched.answer.loaded.close()
