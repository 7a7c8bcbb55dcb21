"""Answers questions one after another: bzlq ask [OPTION ..]

    $ bzlq ask
    bzlq> deps(:app)
    //app:app
    //log:log
    bzlq> why :app //log
    app/BUILD:3: //app:app -> //log:log (data)

Each line is a query, as in bzlq, or another command of bzlq without `bzlq` before it. The workspace is loaded once, and again only after a file
has changed, so answers are always right for the files as they are. On a terminal there is a prompt, the tab key completes labels, Ctrl-C stops an
answer, and Ctrl-D, `exit` or `quit` end it. From a pipe or a file only the answers are written, without headers (bzlq queries has them). It
takes the options --output label or label_kind, --jobs, --max-steps, --large, --all and --strict.

Status, where lines come from a pipe or a file: 2 if one couldn't be answered, else 3 if an answer may lack something, else 0.
"""
import os
import shlex
import sys

from bzlq.bq import BqError, ProcessError, QueryError, program_of
from bzlq.cli import subcommands
from bzlq.cli.answer import Answer
from bzlq.cli.labels import Labels
from bzlq.cli.options import Call
from bzlq.cli.process import write
from bzlq.facts.loaded import Loaded, path_of
from bzlq.overlay.approximations import Ended, Queries
from bzlq.overlay.assembly import MAX_STEPS
from bzlq.workspace.files import Refused

PROMPT = "bzlq> "
ENDS = ("exit", "quit")
HELP = "a line is a query, as deps(//app), or a word of bzlq with its own words, as why //app //log; Ctrl-D ends this (bzlq --help lists the words)"


class Session:
    """A workspace that a process of bq has loaded, and loads again once a file has changed. `identity` is that of the bundle it has read."""

    def __init__(self, call):
        self.call, options = call, call.values
        self.loaded = Loaded(program_of(options.get("--program", "")), output=options.get("--output", "label"), jobs=options.get("--jobs"),
                             max_steps=options.get("--max-steps", MAX_STEPS))
        self.identity, self.warnings, self.said = None, [], []

    def close(self):
        """Ends the process, if there is one."""
        self.loaded.close()

    def answer(self, query):
        """Writes what a query stands for; gives the status."""
        words = Call([])
        words.values, words.flags, words.queries = self.call.values, self.call.flags, [query]
        answer = Answer(words, self.loaded.program)
        self.refresh(answer)
        try:
            lines, found = self.asked(answer)
        except QueryError as error:
            write(answer.explained(Ended(b"", f"bq: {error}\n".encode("utf-8", "surrogateescape"), 2)), sys.stderr)
            return 2
        write(lines, sys.stdout)
        status = 3 if self.loaded.workspace.faults else 0
        answer.tell([] if lines else answer.explained(Ended(b"", b"", status)), [], found)
        return answer.status(status, self.warnings, found)

    def asked(self, answer):
        """The lines of an answer, and what is lost of it. (A process that was ended, as by Ctrl-C at the prompt, is started once more.)"""
        queries = Queries(answer.query, answer.kept.path("bundle"))
        try:
            lines = self.loaded.workspace.query(queries.query)
        except QueryError:
            raise
        except ProcessError:
            self.close()
            self.refresh(answer)
            lines = self.loaded.workspace.query(queries.query)
        counts = [len(lines), *(len(self.loaded.workspace.query(it)) for it in queries.all[1:])]
        return lines, queries.lost(counts, self.loaded.targets)

    def refresh(self, answer):
        """Has the process be one of the workspace as it is now, and says which faults that has, where they are others."""
        bundle, self.warnings = answer.kept.open()
        with bundle:
            found = identity_of(bundle)
            if self.loaded.workspace and found == self.identity:
                return
            self.loaded.take(path_of(bundle))
            self.identity, workspace = found, self.loaded.workspace
            labels = Labels(answer.kept, bundle)
            labels.keep([[f"{it}\n".encode("utf-8", "surrogateescape") for it in workspace.query(query)] for query in labels.wanted()])
        text = "".join(f"{it}\n" for it in [*workspace.printed, *workspace.faults])
        said = answer.explained(Ended(b" ", text.encode("utf-8", "surrogateescape"), 3))
        answer.tell([it for it in said if it not in self.said], self.warnings)
        self.said = said


def identity_of(bundle):
    """What tells an open bundle from another one."""
    found = os.fstat(bundle.fileno())
    return found.st_ino, found.st_size, found.st_mtime_ns


def lines_of(is_terminal):
    """The lines of standard input; nothing stands for one that Ctrl-C has broken off."""
    if not is_terminal:
        for line in sys.stdin.buffer:
            yield line.decode("utf-8", "surrogateescape")
        return
    sys.stdin.reconfigure(errors="surrogateescape")
    try:
        import readline
        from bzlq.cli.complete import complete_line
        readline.set_completer_delims(" \t\n()\"',+^=")
        readline.set_completer(complete_line)
        readline.parse_and_bind("tab: complete")
    except ImportError:
        pass
    while True:
        try:
            if sys.stdout.isatty():
                yield input(PROMPT)
                continue
            print(PROMPT, end="", file=sys.stderr, flush=True)
            if not (line := sys.stdin.readline()):
                return
            yield line
        except EOFError:
            print(file=sys.stderr)
            return
        except KeyboardInterrupt:
            print(file=sys.stderr)
            yield ""


def answered(session, line, is_terminal):
    """Answers a line; gives the status."""
    try:
        words = shlex.split(line)
    except ValueError:
        words = line.split()
    is_call = words[0] in subcommands.WORDS or words[0].startswith("-")
    try:
        if words[0] in ("ask", "query") and len(words) > 1:
            return session.answer(line.split(None, 1)[1])
        return subcommands.run(words) if is_call and words[0] != "ask" else session.answer(line)
    except SystemExit as ended:
        return ended.code or 0
    except (Refused, BqError) as error:
        write([f"bzlq: {error}"], sys.stderr)
        return 2
    except KeyboardInterrupt:
        if not is_terminal:
            raise
        print(file=sys.stderr)
        return 0


def ask(words):
    """Answers the lines of standard input; gives the status."""
    call = Call(words)
    if call.queries or call.raw or {"--facts", "--bundle-path", "--clean", "--version"} & call.flags or {"--queries", "--explain"} & call.values.keys() \
            or call.values.get("--output", "label") not in ("label", "label_kind"):
        raise Refused("ask takes the options --output label or label_kind, --jobs, --max-steps, --all and --strict; the questions come by standard input")
    session, statuses, is_terminal = Session(call), {0}, sys.stdin.isatty()
    try:
        for line in lines_of(is_terminal):
            line = line.strip()
            if line in ENDS:
                break
            if line in ("help", "?"):
                write([HELP], sys.stdout)
            elif line and not line.startswith("#"):
                statuses.add(answered(session, line, is_terminal))
    finally:
        session.close()
    return 0 if is_terminal else next(it for it in (5, 4, 2, 1, 3, 0) if it in statuses or it == 0)
