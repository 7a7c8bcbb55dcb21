"""Evaluates a file of a workspace again, to find where in it a fault is and why.

Takes `Sources` and a file's path; `Machine.run(path)` gives the `Wrong` that its evaluation ends with, or nothing. What it does is
Starlark as far as files are written in it, by an evaluator of its own (nothing is given to Python to run), with bounds on steps; what it
doesn't know ends it with `Unknown`. It never decides anything: a reason is shown only where its number is the one that `bq` printed.
"""
import ast
import re
import time

from bzlq.hints import labels
from bzlq.hints.calls import Calls
from bzlq.hints.expressions import Expressions
from bzlq.hints.frames import Ended, Frame, Module
from bzlq.hints.package import Package
from bzlq.hints.statements import Statements
from bzlq.hints.values import BUDGET, Unknown, Wrong

STEPS = 300_000
PARTS = 3_000_000
SECONDS = 1


class Machine(Statements, Expressions, Calls):
    """An evaluation of files, with a bound on its steps."""

    def __init__(self, sources, steps=STEPS):
        self.sources, self.left = sources, steps
        self.modules = {}
        self.package = None  # the package whose BUILD file is evaluated
        self.packages = {}  # those that were evaluated, or begun, by the paths of their BUILD files
        self.running, self.module = [], None
        self.frozen, self.kept, self.iterated = sources.frozen, sources.kept, []

    def run(self, path):
        """What the evaluation of a file ends with; nothing where it ends well, or can't be told."""
        until = self.sources.until
        # (of the time for all hints half of what is left, so that no file takes that of the others)
        BUDGET.renew(PARTS, SECONDS if until is None else (until - time.process_time()) / 2)
        try:
            self.evaluated(path)
        except Wrong as wrong:
            return wrong
        except (Unknown, RecursionError, Ended, MemoryError):
            if BUDGET.is_over():
                self.sources.is_unsure()
        return None

    def evaluated(self, path):
        """The module of a file, evaluated once."""
        if path in self.sources.modules:
            module, seen = self.sources.modules[path]
            self.sources.seen[-1].add(seen)
            return module
        if path in self.modules:
            if not isinstance(self.modules[path], Module):
                raise Unknown(path)
            return self.modules[path]
        self.modules[path] = None
        with self.sources.noting() as seen:
            module = self.modules[path] = self.evaluated_once(path)
        if not module.is_build:
            self.sources.modules[path] = module, seen
        return module

    def evaluated_once(self, path):
        """The module of a file."""
        tree = self.sources.tree(path)
        if tree is None:
            raise Unknown(path)
        module = Module(path, not path.endswith(".bzl"))
        for node in tree.body:
            self.load(module, node)
        package, running = self.package, self.running
        self.package, self.running = Package(self.sources, path) if module.is_build else None, []
        around, self.module = self.module, module
        if self.package:
            self.packages[path] = self.package
        for node in tree.body:
            self.statement(node, Frame(module, set()))
        self.freeze(list(module.globals.values()))
        self.package, self.running, self.module = package, running, around
        return module

    def freeze(self, values):
        """Notes that values, and all in them, can't be changed any more."""
        while values:
            value = values.pop()
            if isinstance(value, list | dict | tuple) and id(value) not in self.frozen:
                self.frozen.add(id(value))
                self.kept.append(value)
                values += value.values() if isinstance(value, dict) else value

    def load(self, module, node):
        """Evaluates a statement `load`."""
        match node:
            case ast.Expr(value=ast.Call(func=ast.Name(id="load"), args=[ast.Constant(value=str() as text), *rest], keywords=named)):
                clauses = [(it.value, it.value) for it in rest] + [(it.arg, it.value.value) for it in named]
            case _:
                return
        path = self.loaded_path(module.path, text)
        loaded = self.evaluated(path)
        for name, symbol in clauses:
            if symbol not in loaded.globals:
                raise Unknown(symbol)
            module.loaded[name] = loaded.globals[symbol]

    def loaded_path(self, path, text):
        """The path of the file that a load names."""
        found = re.match(r"external/([^/]+)/", path)
        repository = found[1] if found else ""
        package = self.sources.owner(path).removeprefix(f"external/{repository}").strip("/") if repository else self.sources.owner(path)
        try:
            found = labels.path(labels.joined(*labels.split(text, repository, package)))
        except labels.BadLabel as error:
            raise Unknown(str(error)) from None
        if not self.sources.has_file(found):
            raise Unknown(found)
        return found
