"""The statements of Starlark, as a part of the `Machine`."""
import ast

from bzlq.hints.frames import Ended
from bzlq.hints.values import BUDGET, OPERATORS, Function, Rule, Unknown, Wrong, as_key, binary, index, iterable, key, shown, type_of


class Statements:
    """How a statement is executed."""

    def statement(self, node, frame):
        """Executes a statement; what is wrong has its place."""
        try:
            self.step(node, frame)
        except Wrong as wrong:
            wrong.place = wrong.place or (frame.module.path, node)
            raise

    def step(self, node, frame):
        """Executes a statement."""
        self.tick()
        match node:
            case ast.Expr(value=ast.Call(func=ast.Name(id="load"))):
                pass
            case ast.Expr(value=value):
                self.value(value, frame)
            case ast.Assign(targets=targets, value=value):
                found = self.value(value, frame)
                for target in targets:
                    self.bind(target, found, frame)
            case ast.AugAssign(target=target, op=op, value=value):
                self.augment(target, op, value, frame)
            case ast.FunctionDef(name=name, args=given):
                defaults = {it.arg: self.value(value, frame) for it, value in zip(given.args[len(given.args) - len(given.defaults):], given.defaults)}
                defaults |= {it.arg: self.value(value, frame) for it, value in zip(given.kwonlyargs, given.kw_defaults) if value is not None}
                self.assign(name, Function(node, frame.module, defaults), frame)
            case ast.If(test=test, body=body, orelse=other):
                for part in body if self.value(test, frame) else other:
                    self.statement(part, frame)
            case ast.For():
                self.loop(node, frame)
            case ast.Return(value=value):
                raise Ended("return", self.value(value, frame) if value else None)
            case ast.Break() | ast.Continue():
                raise Ended("break" if isinstance(node, ast.Break) else "continue")
            case ast.Pass():
                pass
            case _:
                raise Unknown(type(node).__name__)

    def tick(self):
        """Counts a step."""
        self.left -= 1
        if self.left < 0 or self.left % 256 == 0 and BUDGET.is_over():
            raise Wrong("F53", "the evaluation goes on and on here")

    def loop(self, node, frame):
        """Executes a loop."""
        values = self.value(node.iter, frame)
        parts = values if isinstance(values, range) else self.at(node.iter, frame, iterable, values)
        self.iterated.append(values)
        try:
            for part in parts:
                self.tick()
                self.bind(node.target, part, frame)
                try:
                    for it in node.body:
                        self.statement(it, frame)
                except Ended as ended:
                    if ended.how == "break":
                        break
                    if ended.how == "return":
                        raise
        finally:
            self.iterated.pop()

    def at(self, node, frame, function, *given):
        """Calls a function; what is wrong is at this node."""
        try:
            return function(*given)
        except Wrong as wrong:
            wrong.place = wrong.place or (frame.module.path, node)
            raise

    def changes(self, value):
        """Raises that a value can't be changed, if so it is."""
        if id(value) in self.frozen:
            raise Wrong("F47", f"the {type_of(value)} was made by another file, which has ended: change a copy")
        if any(it is value for it in self.iterated):
            raise Wrong("F48", f"the {type_of(value)} is changed while a loop goes over it: go over a copy")

    def bind(self, target, value, frame):
        """Gives a value to a target of an assignment."""
        match target:
            case ast.Name(id=name):
                self.assign(name, value, frame)
            case ast.Subscript(value=of, slice=at):
                self.at(target, frame, self.put, self.value(of, frame), self.value(at, frame), value)
            case ast.Tuple(elts=targets) | ast.List(elts=targets):
                if not isinstance(value, list | tuple | dict | range) or len(value) != len(targets):
                    many = f"{len(value)} elements" if isinstance(value, list | tuple | dict | range) else f"a {type_of(value)}"
                    raise Wrong("F57", f"{len(targets)} names are assigned {many}: {shown(value)}", (frame.module.path, target))
                for part, it in zip(targets, iterable(value)):
                    self.bind(part, it, frame)
            case _:
                raise Unknown(type(target).__name__)

    def put(self, of, at, value):
        """Gives a value to an element."""
        if isinstance(of, list | dict):
            self.changes(of)
        if isinstance(of, dict):
            of[as_key(key(at))] = value
        elif isinstance(of, list):
            index(of, at)
            of[at] = value
        else:
            raise Wrong("F40", f"an element of a {type_of(of)} can't be assigned to")

    def assign(self, name, value, frame):
        """Binds a name to a value."""
        if frame.outer is None and not frame.bound:
            frame.module.globals[name] = value
            if isinstance(value, Rule) and not value.name:
                value.name = name
        else:
            frame.values[name] = value

    def augment(self, target, op, value, frame):
        """Carries out a statement as `x += y`."""
        before = self.value(target, frame)
        more = self.value(value, frame)
        symbol = OPERATORS.get(type(op))
        if symbol == "+" and isinstance(before, list):
            parts = self.at(value, frame, iterable, more)
            self.at(target, frame, self.changes, before)
            before.extend(parts)
        elif symbol == "|" and isinstance(before, dict) and isinstance(more, dict):
            self.at(target, frame, self.changes, before)
            before.update(more)
        elif symbol:
            self.bind(target, self.at(target, frame, binary, symbol, before, more), frame)
        else:
            raise Unknown("/=")
