"""Calls of functions, methods and rules, as a part of the `Machine`."""
import ast

from bzlq.hints import functions
from bzlq.hints.frames import Ended, Frame, bound_in
from bzlq.hints.package import BUILD_FUNCTIONS
from bzlq.hints.suggestions import did_you_mean
from bzlq.hints.values import Attribute, Builtin, Function, Rule, Unknown, Wrong, iterable, shown, type_of

DEPTH = 100
ATTRIBUTES = ("string", "int", "bool", "string_list", "label", "label_list")


class Calls:
    """What a call gives, or declares."""

    def call(self, node, frame):
        """The value of a call."""
        match node.func:
            case ast.Attribute(value=ast.Name(id="native"), attr=name) if not frame.module.is_build:
                given, named = self.given(node, frame)
                return self.native(name, node, frame, given, named)
            case ast.Attribute(value=ast.Name(id="attr"), attr=name) if not frame.module.is_build and name in ATTRIBUTES:
                _, named = self.given(node, frame)
                return Attribute(name, bool(named.get("mandatory")))
            case ast.Attribute(value=of, attr=name):
                receiver = self.value(of, frame)
                functions.method(receiver, name)
                given, named = self.given(node, frame)
                if name in functions.CHANGING.get(type(receiver), ()):
                    self.changes(receiver)
                return functions.call_method(receiver, name, given, named)
            case ast.Name(id="rule") if not frame.module.is_build and "rule" not in frame.module.globals:
                _, named = self.given(node, frame)
                attributes = named.get("attrs", {})
                kinds = {"name": "string", "visibility": "label_list", "tags": "string_list", "features": "string_list", "testonly": "bool", "deprecation": "string"}
                kinds |= {it: attribute.kind for it, attribute in attributes.items()}
                return Rule("", kinds, {it for it, attribute in attributes.items() if attribute.is_mandatory})
            case _:
                return self.called(node, frame, self.value(node.func, frame))

    def called(self, node, frame, function):
        """Calls a value."""
        given, named = self.given(node, frame)
        match function:
            case Builtin():
                return function.call(given, named)
            case Rule():
                return self.declare(function, node, frame, given, named)
            case Function():
                return self.function(function, node, frame, given, named)
            case _:
                raise Wrong("F40", f"a {type_of(function)} is not a function: {shown(function)}")

    def given(self, node, frame):
        """The arguments of a call."""
        given, named = [], {}
        for part in node.args:
            if isinstance(part, ast.Starred):
                given += self.at(part, frame, iterable, self.value(part.value, frame))
            else:
                given.append(self.value(part, frame))
        for part in node.keywords:
            value = self.value(part.value, frame)
            if part.arg is None and not isinstance(value, dict):
                raise Wrong("F40", f"** takes a dict, and not a {type_of(value)}", (frame.module.path, part.value))
            for name, it in (value if part.arg is None else {part.arg: value}).items():
                if name in named:
                    raise Wrong("F52", f"the argument '{name}' is given twice")
                named[name] = it
        return given, named

    def function(self, function, node, frame, given, named):
        """Calls a function of a file."""
        if any(it is function for it in self.running):
            raise Wrong("F50", f"{function.name} is running already: Starlark has no recursion")
        if len(self.running) >= DEPTH:
            raise Wrong("F51", f"{DEPTH} functions are running already")
        if function.bound is None:
            function.bound = bound_in(function.node) or {""}
        inner = Frame(function.module, function.bound)
        inner.values.update(self.parameters(function, given, named))
        self.running.append(function)
        try:
            for part in function.node.body:
                self.statement(part, inner)
        except Ended as ended:
            return ended.value
        except Wrong as wrong:
            wrong.calls.append((frame.module.path, node, function.name))
            raise
        finally:
            self.running.pop()
        return None

    def parameters(self, function, given, named):
        """The values of a function's parameters."""
        arguments, found, named = function.node.args, {}, dict(named)
        names = [it.arg for it in arguments.args]
        found.update(zip(names, given))
        if len(given) > len(names) and not arguments.vararg:
            raise Wrong("F52", f"{function.name} takes {len(names)} positional argument{'s' * (len(names) != 1)}, and {len(given)} are given")
        for name in [*names, *(it.arg for it in arguments.kwonlyargs)]:
            if name in named:
                if name in found:
                    raise Wrong("F52", f"{function.name} is given '{name}' twice")
                found[name] = named.pop(name)
        if named and not arguments.kwarg:
            odd = next(iter(named))
            raise Wrong("F52", f"{function.name} has no parameter '{odd}'{did_you_mean(odd, [*names, *(it.arg for it in arguments.kwonlyargs)])}")
        missing = [name for name in [*names, *(it.arg for it in arguments.kwonlyargs)] if name not in found and name not in function.defaults]
        if missing:
            raise Wrong("F52", f"{function.name} misses the argument '{missing[0]}'")
        found = {**function.defaults, **found}
        if arguments.vararg:
            found[arguments.vararg.arg] = tuple(given[len(names):])
        if arguments.kwarg:
            found[arguments.kwarg.arg] = named
        return found

    # what a BUILD file declares

    def native(self, name, node, frame, given, named):
        """Calls a member of `native`."""
        if name in BUILD_FUNCTIONS:
            return self.built(name, given, named)
        if name not in self.sources.schema:
            raise Unknown(name)
        rule = Rule(name, self.sources.schema[name], {it for of, it in self.sources.mandatory if of == name})
        return self.declare(rule, node, frame, given, named)

    def built(self, name, given, named):
        """Calls a function of BUILD files."""
        if self.package is None:
            raise Wrong("F70", f"{name} is called while no BUILD file is evaluated: put the call into a function that a BUILD file calls")
        return getattr(self.package, name)(given, named)

    def declare(self, rule, node, frame, given, named):
        """Calls a rule, which declares a target."""
        if self.package is None:
            raise Wrong("F70", f"the rule {rule.name} is called while no BUILD file is evaluated: put the call into a function that a BUILD file calls")
        if not rule.name:
            raise Wrong("F57", "the rule has no name of its own in its .bzl file")
        if given:
            raise Wrong("F52", f"the rule {rule.name} takes named arguments alone: name = {shown(given[0])}")
        self.package.declare(rule, named, (frame.module.path, node))
