"""What is said of each fault: takes the sources and a run's faults, gives `Hint`s, causes first."""
import ast
import re
import time
from dataclasses import dataclass, field

from bzlq.hints import labels, names, queries, scan
from bzlq.hints.machine import Machine
from bzlq.hints.package import place_in
from bzlq.hints.suggestions import did_you_mean
from bzlq.hints.sources import TooLate
from bzlq.overlay.arguments import PREFIX, STUB

# for how many processor seconds files are evaluated again, and how many calls around a place are shown
SECONDS = 2
SHOWN = 4


@dataclass
class Hint:
    """What is said of a fault: where it is, and why."""
    fault: object
    path: str
    line: int
    column: int
    reason: str
    inner: list = field(default_factory=list)  # where in macros it is: (path, line, column, function), the innermost first
    follows: bool = False  # whether another fault is its cause

    def __post_init__(self):
        self.kept = self.line, self.column, self.reason, self.inner  # as it was found, for the next run
        # (the files are read as bytes, a character each)
        self.reason = re.sub("[\x80-\xff]+", lambda found: found[0].encode("latin-1").decode("utf-8", "replace"), self.reason)

    def text(self):
        """The line to write."""
        where = "".join(f", {'called ' if at else ''}at {path}:{line}:{column} in {function}"
                        for at, (path, line, column, function) in enumerate(self.inner[:SHOWN]))
        where += f", and {len(self.inner) - SHOWN} more calls" if len(self.inner) > SHOWN else ""
        return f"{self.path}:{self.line}:{self.column}: {self.fault.number} {self.fault.name}" + (f": {self.reason}{where}" if self.reason or where else "")

    def data(self):
        """The same as data."""
        inner = [dict(zip(("path", "line", "column", "function"), it)) for it in self.inner]
        return {"path": self.path, "line": self.line, "column": self.column, "number": self.fault.number, "name": self.fault.name,
                "reason": self.reason, "label": self.fault.label, "inner": inner, "follows": self.follows}


class Hints:
    """The hints of a run's faults. With `is_brief` nothing is looked for of those that follow from others, which only are counted. `kept` has hints of
    runs before (KeptHints), if they are kept."""

    def __init__(self, sources, faults, is_brief=False, kept=None):
        self.sources, self.faults, self.is_brief, self.kept = sources, faults, is_brief, kept
        self.failed = {it.label for it in faults if it.number != "F79"}
        self.first = {}  # by the path of a file, the first of its own faults
        for it in faults:
            if it.number != "F79":
                self.first.setdefault(sources.file_of(it.label), it)
        self.until, self.skipped = time.process_time() + SECONDS, 0
        if sources:
            sources.until = self.until

    def all(self):
        """The hints of all faults: causes in the order of the lines, then what follows from them."""
        found = [self.hint(it) for it in self.faults]
        seen = set()
        for it in found:
            if it.fault.number == "F35":
                around = frozenset(it.reason.partition(": ")[2].split(" -> "))
                it.follows = it.follows or around in seen or it.fault.label not in around and any(
                    other.fault.number == "F35" and other.fault.label in around for other in found)
                seen |= {around} if not it.follows else set()
        return [it for it in found if not it.follows] + [it for it in found if it.follows]

    def hint(self, fault):
        """The hint of a fault."""
        path = self.sources.file_of(fault.label)
        shown = self.sources.place(path)
        follows = fault.number == "F36" and fault.detail in self.failed
        if found := self.kept and self.kept.of(fault.text):
            return Hint(fault, shown, *found, follows=follows)
        if time.process_time() > self.until:
            self.skipped += 1
            return Hint(fault, shown, fault.line, 1, fault.detail, follows=follows)
        with self.sources.noting() as seen:
            found = self.looked_for(fault, path, shown, follows)
        if self.kept and seen.is_sure:
            self.kept.put(fault.text, found.kept, seen)
        return found

    def looked_for(self, fault, path, shown, follows):
        """The hint of a fault, from the files."""
        try:
            found = self.dangling(fault, path, shown) if fault.number == "F79" else self.fault(fault, path, shown)
        except TooLate:
            self.skipped += 1
            found = None
        except Exception:
            # (a file of another form than such files have: the line stays as it is)
            found = None
        if isinstance(found, Hint):
            return found
        line, column, reason = found or (fault.line, 1, fault.detail)
        return Hint(fault, shown, line, column, reason, follows=follows)

    def fault(self, fault, path, shown):
        """A hint, or line, column and reason, or nothing."""
        text, number = self.sources.text(path), fault.number
        if number in scan.SCANS:
            return scan.SCANS[number](text, fault.line)
        if number == "F24":
            return names.double_parameter(self.sources, fault, text)
        tree = self.sources.tree(path)
        if tree is None:
            return None
        if number == "F37" and fault.detail:
            return names.crosses(self.sources, fault, tree)
        if number in names.NAMES:
            return names.NAMES[number](self.sources, fault, tree)
        return self.evaluated(fault, path, shown, tree)

    def evaluated(self, fault, path, shown, tree):
        """What the evaluation of the file ends with, if it is this fault in this statement."""
        wrong = Machine(self.sources).run(path)
        statement = names.statement_of(tree, fault.line)
        if not wrong or wrong.number != fault.number or statement is None:
            return fault.line, statement.col_offset + 1 if statement else 1, fault.detail
        nodes, functions = [wrong.place, *((of, call) for of, call, _ in wrong.calls)], [name for *_, name in wrong.calls]
        while len(nodes) > 1 and self.sources.text(nodes[0][0]).startswith(STUB):  # (what stands for a rule in an overlay)
            del nodes[0], functions[0]
        nodes[0] = (nodes[0][0], place_in(nodes[0][1], wrong))
        stack = [(of, node.lineno, node.col_offset + 1) for of, node in nodes]
        of, line, column = stack[-1]
        if of != path or not statement.lineno <= line <= statement.end_lineno:
            return fault.line, statement.col_offset + 1, fault.detail
        inner = [(self.sources.place(of), line, column, functions[at]) for at, (of, line, column) in enumerate(stack[:-1])]
        return Hint(fault, shown, line, column, wrong.reason, inner)

    def dangling(self, fault, path, shown):
        """A label that names no target: where it is written, and what is wrong with it."""
        repository, package, name = labels.split(fault.detail)
        here = labels.split(fault.label)[:2]
        build = self.sources.build_file(labels.directory(repository, package))
        own = self.first.get(build) if build else None
        if own:
            self.sources.is_unsure()
        if own and self.is_brief:
            return Hint(fault, shown, fault.line, 1, "", follows=True)
        tree = self.sources.tree(path)
        statement = names.statement_of(tree, fault.line) if tree else None
        node = next((it for it in ast.walk(statement) if isinstance(it, ast.Constant) and self.is_label(it.value, here, (repository, package, name))),
                    statement) if statement else None
        line, column = (node.lineno, node.col_offset + 1) if node is not None else (fault.line, 1)
        inside = "" if node is not statement or not isinstance(statement, ast.Expr) or self.is_rule(statement) else ", which the macro that is called here names"
        if not build:
            reason = names.package_missing(self.sources, fault.detail)
            return Hint(fault, shown, line, column, f"no target {fault.detail}{inside}: {reason}")
        if own:
            return Hint(fault, shown, line, column, f"no target {fault.detail}: the package has a fault of its own ({self.sources.place(build)}:{own.line})", follows=True)
        place = f"{labels.directory(repository, package)}/{name}".lstrip("/")
        owner = self.sources.owner(place)
        if owner != labels.directory(repository, package) and owner.startswith(labels.directory(repository, package)):
            inner = owner[len(f"external/{repository}/" if repository else ""):]
            why = f": '{inner}' is a package of its own: write {labels.joined(repository, inner, place[len(owner):].lstrip('/'))}"
        elif self.sources.has_file(place):
            why = ": the file is there, and its package doesn't export it: use exports_files"
        else:
            why = self.did_you_mean(name, build)
        of = f"@{repository}//{package}" if repository else package
        return Hint(fault, shown, line, column, f"package '{of}' has no target '{name}'{inside}{why}")

    def did_you_mean(self, name, build):
        """What may have been meant by a name that a package hasn't."""
        return self.sources.once(("meant", name, build), lambda: did_you_mean(name, queries.target_names(self.sources, build)))

    @staticmethod
    def is_label(text, here, wanted):
        """Whether a text is this label, in a file of the repository and package `here`."""
        try:
            return isinstance(text, str) and wanted[2] in text and labels.split(text, *here) == wanted
        except labels.BadLabel:
            return False

    def is_rule(self, statement):
        """Whether a statement calls a rule."""
        return isinstance(statement.value, ast.Call) and isinstance(statement.value.func, ast.Name) and statement.value.func.id.removeprefix(PREFIX) in self.sources.schema
