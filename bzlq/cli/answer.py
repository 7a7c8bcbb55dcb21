"""Asks bq about the workspace that one stands in: takes the words of a call and the program, writes the answer and what there is to say of it,
gives the status."""
import contextlib
import hashlib
import os
import re
import subprocess
import sys
import threading

from bzlq.bq import LARGE, MAX_FILE_BYTES, PATH, Facts
from bzlq.cache.store import Kept
from bzlq.cli.formats import FORMS
from bzlq.cli.labels import ALL, Labels
from bzlq.cli.process import Unwritten, write, write_bytes
from bzlq.cli.relative_labels import BadWord, absolute
from bzlq.overlay.approximations import IDENTIFIER, KINDS, TESTONLY, VISIBILITY, Place, absent_of, attributes_in, looking_through, lost_values_of, unmarked_of, ungiven_of, unseen_of
from bzlq.overlay.assembly import MAX_STEPS, run_options
from bzlq.workspace.root import folder_of, root_of
from bzlq.workspace.taken_away import TakenAway


# a command that puts a file, whose bytes come next, and one that has a query
PUT = re.compile(rb"=== put (\d{1,18}) ([^\r\n]+)\r?\n")
FACTS_OF = "=== facts "


class Answer:
    """What is asked of a workspace, and where it is."""

    def __init__(self, call, program):
        self.call, self.program, self.root = call, program, root_of(os.getcwd())
        self.folder = folder_of(self.root)
        self.kept = Kept(self.root, program)
        self.query = absolute(" ".join(call.queries), self.root, self.folder)
        self.early = None  # the answer, where it was asked for with what a patch has to know

    def give(self):
        """Writes what is asked for; gives the status."""
        is_plain = self.query and not ({"--facts", "--bundle-path"} & self.call.flags or {"--queries", "--max-steps"} & self.call.values.keys())
        bundle, warnings = self.kept.open(self.ask_with if is_plain and self.call.values.get("--output", "") not in FORMS else None)
        with bundle:
            if "--bundle-path" in self.call.flags:
                write([self.kept.path("bundle")], sys.stdout)
                self.tell([f"bzlq: {LARGE}"] if self.kept.is_large else [], warnings)
                return 0
            if "--queries" in self.call.values:
                self.tell([], warnings)
                return self.many(bundle, self.call.values["--queries"], warnings)
            return self.one(bundle, warnings)

    def one(self, bundle, warnings):
        """Answers the query."""
        ended, text, found = self.asked(bundle)
        write_bytes(text, sys.stdout)
        self.tell(self.explained(ended) + TakenAway(self.root).lines(text), warnings, found)
        return self.status(ended.returncode, warnings, found)

    def asked(self, bundle):
        """How a run of the query ends, the text of the answer in its form, and what is lost of it."""
        options, form = self.options(), FORMS.get(self.call.values.get("--output", ""))
        if not form and "--facts" not in self.call.flags:
            if self.early and self.kept.is_asked:
                ended, found = self.early
            else:
                labels = Labels(self.kept, bundle)
                ended, found, further = self.ask(bundle, labels.wanted())
                labels.keep(lines for _, lines in further)
            return ended, ended.stdout, found
        words = [*options, "--facts", *(["--", self.query] if self.query else [])]
        ended = subprocess.run([self.program, *words], stdin=bundle, capture_output=True, check=False)
        if ended.returncode not in (0, 3):
            return ended, ended.stdout, None
        if not form:
            from bzlq.overlay.package_defaults import lines_of  # (not at the top: it reads files)
            found = self.lost(bundle, Facts.of_lines(ended.stdout.splitlines()).targets).without_own() if any(looking_through(self.query)) else None
            return ended, ended.stdout + text_of(lines_of(self.kept.path("bundle"), ended.stdout)), found
        targets = Facts.of_lines(ended.stdout.splitlines()).targets
        return ended, text_of(form(targets, ended.stdout, self.path)), self.lost(bundle, targets)

    def lost(self, bundle, targets):
        """What is lost of these targets of an answer, and beside them."""
        return Place(self.program, self.options(), bundle).lost(self.query, targets.values())

    def ask(self, bundle, more):
        """Asks for the answer, and for more in the same session."""
        return Place(self.program, [*self.options(), *self.call.of_bq("--output")], bundle).ask(self.query, more)

    def ask_with(self, bundle, queries):
        """Asks for the answer, and for more in the same session: gives the blocks of the latter, and the run's fault lines."""
        *self.early, blocks = self.ask(bundle, queries)
        return blocks, self.early[0].stderr

    def status(self, status, warnings, found):
        """The status: 3 also where the answer may lack a target, or with --strict is an approximation in any way."""
        is_lacking = bool(warnings) or found is not None and (found.may_lack() or "--strict" in self.call.flags and found.some)
        return 3 if status == 0 and is_lacking else status

    def options(self):
        """The options of the call that each run of bq gets."""
        is_large = self.kept.is_large or "--large" in self.call.flags
        return [*self.call.of_bq("--jobs"), *run_options(is_large, self.call.values.get("--max-steps", MAX_STEPS))]

    def many(self, bundle, name, warnings):
        """Answers the queries of a file, or those of standard input, each as soon as it is there. (The lines before the answers are bq's own: what
        the workspace lacks is in the status.)"""
        words = [self.program, *self.options(), *self.call.of_bq("--output"), "--bundle", f"/dev/fd/{bundle.fileno()}", "--queries", "-"]
        lost = LostOfAll(Place(self.program, self.options(), bundle))
        with open(sys.stdin.fileno() if name == "-" else name, "rb", closefd=name != "-") as lines:
            # (SIGXFSZ stays ignored, as Python has it: a limit of file sizes is an error of a write)
            outputs = [subprocess.PIPE if it.isatty() else None for it in (sys.stdout, sys.stderr)]
            run = subprocess.Popen(words, stdin=subprocess.PIPE, stdout=outputs[0], stderr=outputs[1], pass_fds=[bundle.fileno()],
                                   restore_signals=False)
            readers = [threading.Thread(target=passed_on, args=it) for it in ((run.stdout, sys.stdout), (run.stderr, sys.stderr)) if it[0]]
            for it in readers:
                it.start()
            try:
                for line in lines:
                    lost.look(line.decode("utf-8", "replace"))
                    run.stdin.write(self.full(line))
                    if count := put_bytes(line):
                        run.stdin.write(lines.read(count))
                    run.stdin.flush()
                run.stdin.close()
                run.wait()
            except BrokenPipeError:
                run.wait()  # (it has ended, and said why)
            except BaseException:
                run.kill()
                run.wait()
                raise
            finally:
                for it in readers:
                    it.join()
            lost.end()
            write([f"bzlq: {it}" for it in (lost.found.lines("the workspace") if lost.found else ())], sys.stderr)
            return 3 if run.returncode == 0 and (warnings or lost.may_lack("--strict" in self.call.flags)) else run.returncode

    def full(self, line):
        """A line of queries with labels in full; one that leads out of the workspace is left to bq, which refuses it in its place, and so is a command
        but for the query of facts."""
        text = line.decode("utf-8", "surrogateescape")
        command = FACTS_OF if text.startswith(FACTS_OF) else ""
        if text.startswith("#") or not text.strip() or text.startswith("=== ") and not command:
            return line
        try:
            return (command + absolute(text.removeprefix(command).rstrip("\r\n"), self.root, self.folder) + "\n").encode("utf-8", "surrogateescape")
        except BadWord:
            return line

    def path(self, path):
        """A file's path from the folder that one stands in."""
        return self.kept.shown(path)

    def explained(self, ended):
        """What a run wrote to standard error, with hints. (Those of fault lines are kept, since the next run has the same lines.)"""
        text, is_all = ended.stderr.decode("utf-8", "surrogateescape"), "--all" in self.call.flags
        is_empty = ended.returncode in (0, 3) and not ended.stdout
        key = hashlib.sha256(f"{os.getcwd()}\0{is_all}\0{text}".encode("utf-8", "surrogateescape")).hexdigest()
        lines = self.kept.said(key) if ended.returncode == 3 else [] if not text else None
        if lines is not None and not is_empty:
            return lines
        # (not at the top: most runs don't need them)
        from bzlq.hints.report import hinted
        from bzlq.hints.sources import Sources
        sources = Sources.of_bundle(self.kept.path("bundle"), self.path)
        if lines is None:
            hints = self.kept.hints(sources, f"{os.getcwd()}\0{is_all}")
            lines, _ = hinted(text.splitlines(), sources, self.query, is_all, not is_all, hints)
            self.kept.keep_hints(hints)
            if ended.returncode == 3:
                self.kept.keep_said(key, lines)
        return lines + ([f"bzlq: nothing matches{empty(sources, self.query)}"] if is_empty else [])

    @staticmethod
    def tell(lines, warnings, found=None):
        """Writes what is to be said of a run, and what its answer lacks."""
        if warnings:
            lines = lines + [f"bzlq: targets may be missing: {warnings[0]}" +
                             (f"; and {len(warnings) - 1} more (bzlq stubs lists them)" if len(warnings) > 1 else "")]
        if found:
            lines = lines + [f"bzlq: {it}" for it in found.lines()]
        write(lines, sys.stderr)


class LostOfAll(threading.Thread):
    """Finds out beside a run what is lost of all targets: `found` has it at the end. `is_of_kinds`, `is_of_visibility` and `is_of_testonly` say whether a
    query is about these, `attributes` are those that queries ask for, with their patterns, and `absent` those of them that bq doesn't have."""

    def __init__(self, place):
        super().__init__(daemon=True)
        self.place, self.found, self.unseen = place, None, 0
        self.is_of_kinds = self.is_of_visibility = self.is_of_testonly = False
        self.attributes, self.absent = set(), set()
        self.start()

    def run(self):
        """Asks for it."""
        _, self.found, further = self.place.ask(ALL, [unseen_of(ALL)])
        self.unseen = sum(len(lines) for _, lines in further)

    def look(self, query):
        """Looks at a query."""
        self.is_of_kinds |= bool(KINDS.search(query))
        self.is_of_visibility |= bool(VISIBILITY.search(query))
        self.is_of_testonly |= bool(TESTONLY.search(query))
        self.attributes.update((name, pattern) for name, pattern, _ in attributes_in(query))
        self.absent.update(absent_of(query))

    def end(self):
        """Waits for what is lost."""
        self.join()
        if self.found and self.is_of_visibility:
            self.found.unseen = self.unseen
        if self.found and self.is_of_testonly:
            # (not beside the run: it reads all files of the bundle, and is asked for rarely)
            self.found.unmarked = self.lacking("testonly", unmarked_of(ALL, self.place.path))
        if self.found:
            asked = {(name, query): None for name, pattern in sorted(self.attributes) if (query := ungiven_of(name, pattern, ALL, self.place.path))}
            for (name, query), count in zip(asked, self.place.counts([query for _, query in asked])):
                if count and (lacks := self.lacking(name, query)):
                    self.found.ungiven[name] = max(lacks, self.found.ungiven.get(name, 0))
            self.found.partial = self.partial()
            self.found.absent = sorted(self.absent)

    def partial(self):
        """How many targets may have more in each attribute that queries ask for than is known."""
        names = sorted({name for name, _ in self.attributes if IDENTIFIER.fullmatch(name)})
        return {name: count for name, count in zip(names, self.place.counts([lost_values_of(name, ALL) for name in names])) if count}

    def lacking(self, name, query):
        """How many targets of a query don't give an attribute."""
        return sum(name not in it.attributes for it in self.place.targets(query))

    def may_lack(self, is_strict):
        """Whether an answer may lack a target, or is an approximation in any way."""
        return bool(self.found and (self.found.may_lack() or self.is_of_kinds and self.found.by_word["kind"] or is_strict and self.found.some))


def put_bytes(line):
    """How many bytes come after a line that puts a file, with the newline at their end; 0 after any other line."""
    found = PUT.fullmatch(line)
    return int(found[1]) + 1 if found and int(found[1]) <= MAX_FILE_BYTES and PATH.fullmatch(found[2].decode("latin-1")) else 0


def passed_on(pipe, to):
    """Writes what comes from a pipe to a terminal, a line as soon as it is there. (Where the terminal has gone, the rest is read all the same, so
    that the process can end.)"""
    with pipe:
        for line in pipe:
            with contextlib.suppress(OSError, Unwritten):
                write_bytes(line, to)


def text_of(lines):
    """Lines as they are written."""
    return "".join(f"{line}\n" for line in lines).encode("utf-8", "surrogateescape")


def empty(sources, query):
    """Why an answer may be empty: a kind that no rule has, or an attribute."""
    from bzlq.hints.suggestions import did_you_mean
    from bzlq.hints.queries import calls
    for function, given in calls(query):
        if function in ("attr", "labels") and given:
            word, known = given[0][1].strip("\"'"), {name for attributes in sources.schema.values() for name in attributes}
            if word not in known:
                return f": no rule of the workspace has an attribute '{word}'{did_you_mean(word, known)}"
        if function == "kind" and given:
            word = given[0][1].strip("\"'")
            plain = word.removesuffix(" rule").strip("^$.*")
            if plain and not any(plain in f"{rule} rule" for rule in [*sources.schema, "source file", "generated file", "package group"]):
                return f": no rule of the workspace has a kind like '{word}'{did_you_mean(plain, sources.schema)}"
    return ""
