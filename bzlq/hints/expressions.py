"""The expressions of Starlark but for calls, as a part of the `Machine`."""
import ast

from bzlq.hints import functions
from bzlq.hints.frames import Frame
from bzlq.hints.package import BUILD_FUNCTIONS
from bzlq.hints.values import OPERATORS, Builtin, Rule, Unknown, Wrong, as_key, binary, checked, compare, index, iterable, key, shown, type_of

COMPARISONS = {ast.Eq: "==", ast.NotEq: "!=", ast.Lt: "<", ast.LtE: "<=", ast.Gt: ">", ast.GtE: ">=", ast.In: "in", ast.NotIn: "not in"}


class Expressions:
    """What an expression gives."""

    def value(self, node, frame):
        """The value of an expression; what is wrong has its place."""
        try:
            return self.expression(node, frame)
        except Wrong as wrong:
            if wrong.number != "F53":  # (of which the statement is shown: where in it the limit is met, says nothing)
                wrong.place = wrong.place or (frame.module.path, node)
            raise

    def expression(self, node, frame):
        """The value of an expression."""
        self.tick()
        match node:
            case ast.Constant(value=value):
                if not isinstance(value, str | int | type(None)):
                    raise Unknown("a constant")
                return value
            case ast.Name(id=name):
                return self.name(name, frame)
            case ast.List(elts=parts):
                return [self.value(part, frame) for part in parts]
            case ast.Tuple(elts=parts):
                return tuple(self.value(part, frame) for part in parts)
            case ast.Dict(keys=keys, values=values):
                return self.display(keys, values, frame)
            case ast.ListComp() | ast.DictComp():
                return self.comprehension(node, frame)
            case ast.IfExp(test=test, body=body, orelse=other):
                return self.value(body if self.value(test, frame) else other, frame)
            case ast.BoolOp(op=op, values=parts):
                return self.boolean(isinstance(op, ast.And), parts, frame)
            case ast.BinOp(left=left, op=op, right=right) if type(op) in OPERATORS:
                return binary(OPERATORS[type(op)], self.value(left, frame), self.value(right, frame))
            case ast.Compare(left=left, ops=[op], comparators=[right]) if type(op) in COMPARISONS:
                return compare(COMPARISONS[type(op)], self.value(left, frame), self.value(right, frame))
            case ast.UnaryOp(op=op, operand=of):
                return self.unary(op, self.value(of, frame))
            case ast.Subscript(value=of, slice=ast.Slice() as cut):
                return self.slice(self.value(of, frame), [self.value(it, frame) if it else None for it in (cut.lower, cut.upper, cut.step)])
            case ast.Subscript(value=of, slice=at):
                return index(self.value(of, frame), self.value(at, frame))
            case ast.Call():
                return self.call(node, frame)
            case _:
                raise Unknown(type(node).__name__)

    def name(self, name, frame):
        """The value of a name."""
        scope = frame
        while scope is not None:
            if name in scope.values:
                return scope.values[name]
            if name in scope.bound:
                raise Wrong("F49", f"'{name}' has no value yet")
            scope = scope.outer
        module = frame.module
        for names in (module.globals, module.loaded):
            if name in names:
                return names[name]
        if name in self.sources.bound_at_top(module.path):
            raise Wrong("F49", f"'{name}' has no value yet")
        if module.is_build and name in BUILD_FUNCTIONS:
            return Builtin(name, lambda given, named: self.built(name, given, named))
        if module.is_build and name in self.sources.schema:
            return Rule(name, self.sources.schema[name], {it for rule, it in self.sources.mandatory if rule == name})
        if name in functions.UNIVERSE:
            return functions.UNIVERSE[name]
        raise Unknown(name)

    def display(self, keys, values, frame):
        """The value of a dict that is written out."""
        found = {}
        for at, value in zip(keys, values):
            name = as_key(self.at(at, frame, key, self.value(at, frame)))
            if name in found:
                raise Wrong("F46", f"the key {shown(name)} is there already", (frame.module.path, at))
            found[name] = self.value(value, frame)
        return found

    def comprehension(self, node, frame):
        """The value of a comprehension."""
        first = self.value(node.generators[0].iter, frame)
        names = {it.id for clause in node.generators for it in ast.walk(clause.target) if isinstance(it, ast.Name)}
        inner, found = Frame(frame.module, names, frame), [] if isinstance(node, ast.ListComp) else {}

        def clause(at, given):
            if at == len(node.generators):
                if isinstance(found, list):
                    found.append(self.value(node.elt, inner))
                else:
                    name = as_key(key(self.value(node.key, inner)))
                    found[name] = self.value(node.value, inner)
                return
            clauses = node.generators[at]
            values = given if at == 0 else self.value(clauses.iter, inner)
            parts = values if isinstance(values, range) else self.at(clauses.iter, frame, iterable, values)
            self.iterated.append(values)
            for part in parts:
                self.tick()
                self.bind(clauses.target, part, inner)
                if all(self.value(test, inner) for test in clauses.ifs):
                    clause(at + 1, None)
            self.iterated.pop()

        clause(0, first)
        return checked(found)

    def boolean(self, is_and, parts, frame):
        """The value of `and` or `or`."""
        value = None
        for part in parts:
            value = self.value(part, frame)
            if bool(value) is not is_and:
                break
        return value

    def unary(self, op, value):
        """The value of `not`, `-`, `+` or `~`."""
        if isinstance(op, ast.Not):
            return not value
        if type(value) is not int:
            raise Wrong("F40", f"unsupported operation: {'-' if isinstance(op, ast.USub) else '+' if isinstance(op, ast.UAdd) else '~'}{type_of(value)}")
        return checked(-value if isinstance(op, ast.USub) else value if isinstance(op, ast.UAdd) else ~value)

    def slice(self, of, bounds):
        """A slice of a value."""
        if not isinstance(of, str | list | tuple):
            raise Wrong("F40", f"a {type_of(of)} has no slices")
        for it in bounds:
            if it is not None and type(it) is not int:
                raise Wrong("F40", f"a bound of a slice is an int, and not a {type_of(it)}: {shown(it)}")
        if bounds[2] == 0:
            raise Wrong("F57", "a slice with a step of 0")
        return of[slice(*bounds)]
