"""Changes that facts can't show, since something else stands in an overlay for what bq leaves out (docs/REAL_WORKSPACES.md): a dict that is
dropped, the conditions of a `select`, what a rule of Starlark does. Takes two sides, gives each target that they may concern with the reason.

A statement is *lossy* where the overlay has another one in its place, where it calls a stub that gives the same value whatever it is given, or
where it has a dict or the like, which the stub of a rule drops. Where a lossy
statement of a BUILD file changed, or names something that did, its targets count; where a .bzl file changed, and one that is loaded with it
is lossy, all targets of the packages that load it. And what `package(..)` says counts for all of its package, with an overlay or without.
"""
import ast
import os
import re

from bzlq.overlay.arguments import PREFIX
from bzlq.overlay.reading import bound_by, parsed

STUB = b"bzlq_given("
CALL = re.compile(rb"\b" + PREFIX.encode() + rb"(\w+)")
# a stub that drops what it is given
DROPPING = re.compile(rb"^def (\w+)\(\*args, \*\*kwargs\)", re.M)


class Statement:
    """A statement of a file: its lines, what it says, the names in it, and whether the overlay has something else for a part of it."""

    def __init__(self, node, text, copied, stubs):
        self.first, self.last, self.node = node.lineno, node.end_lineno, node
        self.said = ast.dump(without_comments(node))
        lines = slice(node.lineno - 1, node.end_lineno)
        self.is_load = function_of(node) == "load"
        self.has_dict = any(is_no_attribute(it) for it in ast.walk(node))
        self.names = {it.id for it in ast.walk(node) if isinstance(it, ast.Name)}
        is_dropped = any(drops(it, stubs) for it in ast.walk(node))
        self.is_copied = not self.is_load and (is_dropped or copied is not None and not is_same(text[lines], copied[lines]))


def is_same(lines, copied):
    """Whether a copy has these lines, but for calls of what stands for a rule in the place of calls of the rule."""
    return lines == copied or any(lines == [CALL.sub(rule, it) for it in copied] for rule in (rb"\1", rb"native.\1"))


def without_comments(node):
    """A statement without the texts that stand in it as comments."""
    for it in ast.walk(node):
        if isinstance(it, ast.FunctionDef) and isinstance(it.body[0], ast.Expr) and isinstance(it.body[0].value, ast.Constant):
            it.body[0] = ast.Pass()
    return node


def drops(node, stubs):
    """Whether an expression calls a stub that drops something of what it is given: all of it, or what comes after the name."""
    if not isinstance(node, ast.Name | ast.Call):
        return False
    name = node.id if isinstance(node, ast.Name) else getattr(node.func, "id", "")
    return name in stubs and (stubs[name] or isinstance(node, ast.Call) and len(node.args) > 1)


def is_no_attribute(node):
    """Whether an expression makes a value that no attribute of a schema takes: a dict, or a list of other things than texts."""
    match node:
        case ast.Dict() | ast.DictComp() | ast.Name(id="dict"):
            return True
        case ast.List(elts=parts) | ast.Tuple(elts=parts):
            return any(isinstance(it, ast.List | ast.Tuple) or isinstance(it, ast.Constant) and not isinstance(it.value, str) for it in parts)
        case _:
            return False


def function_of(node):
    """The name of the function that a statement calls."""
    return node.value.func.id if isinstance(node, ast.Expr) and isinstance(node.value, ast.Call) and isinstance(node.value.func, ast.Name) else ""


def is_comment(node):
    """Whether a statement is a text alone, which says nothing."""
    return isinstance(node, ast.Expr) and isinstance(node.value, ast.Constant)


class Texts:
    """The files of a side, as statements."""

    def __init__(self, side):
        self.side, self.known = side, {}
        self.loads = {it.file: it.loads for it in side.facts.modules.values()}

    def statements(self, path):
        """The statements of a file; None where it can't be read here, or isn't there."""
        if path not in self.known:
            self.known[path] = self.read(path)
        return self.known[path]

    def read(self, path):
        """What a file says, by its statements; nothing where it isn't there."""
        text = self.side.texts.get(path)
        if text is None:
            return None
        copied = self.side.overlay.get(path)
        lines = [it.strip() for it in text.split(b"\n")]
        others = None if copied is None else [it.strip() for it in copied.split(b"\n")]
        try:
            stubs = self.stubs(path)
            return [Statement(node, lines, others, stubs) for node in parsed(text).body if not is_comment(node)]
        except (SyntaxError, ValueError, RecursionError, MemoryError):
            return None

    def stubs(self, path):
        """The names that a file loads from files of the overlay alone, each with whether it drops all that it is given."""
        found = {}
        for load in self.loads.get(path, ()):
            if load.file in self.side.overlay and load.file not in self.side.texts:
                dropping = {name.decode() for name in DROPPING.findall(self.side.overlay[load.file])}
                found |= {name: symbol in dropping for name, symbol in load.symbols.items()}
        return found

    def callers_of_package(self, path):
        """The functions of a .bzl file that call `native.package`, with what they say."""
        if b"native.package(" not in self.side.texts.get(path, b""):
            return {}
        return {it.node.name: it.said for it in self.statements(path) or () if isinstance(it.node, ast.FunctionDef)
                and any(isinstance(part, ast.Attribute) and part.attr == "package" for part in ast.walk(it.node))}

    def is_lossy(self, path):
        """Whether the overlay has something else in the place of a part of this .bzl file."""
        statements = self.statements(path)
        return any(it.is_copied for it in statements) if statements is not None else path in self.side.overlay and path in self.side.texts

    def has_dict(self, path):
        """Whether a statement of a file makes a value that no attribute takes."""
        return any(it.has_dict for it in self.statements(path) or ())


def hidden(base, head):
    """The targets that a change may concern though their facts are the same, each with the reason."""
    before, after = Texts(base), Texts(head)
    changed = {path for path in {**base.texts, **head.texts} if base.texts.get(path) != head.texts.get(path) and said(before, path) != said(after, path)}
    if not changed:
        return {}
    closures, declared, found = loaded_by(head.facts.modules), {}, {}
    for target in head.facts.targets.values():
        if target.line:
            declared.setdefault(target.file, []).append(target)
    for path, targets in declared.items():
        of_all, by_line = Package(path, closures.get(path, ()), changed, before, after).reasons()
        found |= {target.label: of_all or by_line[target.line] for target in targets if of_all or target.line in by_line}
    return found


def said(texts, path):
    """What the statements of a file say; its text where they can't be read here."""
    statements = texts.statements(path)
    return texts.side.texts.get(path) if statements is None else [it.said for it in statements]


def loaded_by(modules):
    """The files that each BUILD file loads, directly or not, by their paths."""
    found = {}
    for module in modules.values():
        if os.path.basename(module.file).startswith("BUILD"):
            seen, pending = {module.label}, [module]
            while pending:
                for load in pending.pop().loads:
                    if load.label not in seen and load.label in modules:
                        seen.add(load.label)
                        pending.append(modules[load.label])
            found[module.file] = sorted(modules[it].file for it in seen - {module.label})
    return found


class Package:
    """A BUILD file of the head, with what it loads."""

    def __init__(self, path, loaded, changed, before, after):
        self.path, self.loaded, self.before, self.after = path, loaded, before, after
        self.changed_loaded = [it for it in loaded if it in changed]
        self.is_changed = path in changed

    def is_lossy(self):
        """Whether something is left out of a file that it loads, or by the stub of a rule."""
        sides = (self.before, self.after)
        is_stubbed = any(STUB in self.after.side.overlay.get(it, b"") for it in self.loaded)
        return is_stubbed and any(side.has_dict(it) for side in sides for it in self.loaded) or any(side.is_lossy(it) for side in sides for it in self.loaded)

    def reasons(self):
        """The reason that counts for all targets, and those by the lines of the statements that declare some."""
        if not self.is_changed and not self.changed_loaded:
            return "", {}
        earlier, statements = self.before.statements(self.path), self.after.statements(self.path)
        if statements is None:
            return f"{self.path}, whose text can't be compared", {}
        if of_package(self.before, self.path) != of_package(self.after, self.path):
            return "package(..)", {}
        is_lossy = self.is_lossy()
        if self.changed_loaded and is_lossy:
            return f"{self.changed_loaded[0]}, of which bq leaves something out", {}
        reason, has_overlay = f"{self.path}, of which bq leaves something out", bool(self.after.side.overlay)
        touched = self.touched(earlier or [], statements)
        return "", {it.first: reason for it in touched if is_lossy or it.is_copied or it.has_dict and has_overlay}

    def touched(self, earlier, statements):
        """The statements that changed, or that name something that did."""
        before, after = {it.said for it in earlier}, {it.said for it in statements}
        names = {name for it in earlier if it.said not in after for name in made_by(it)}
        if self.changed_loaded:
            names |= {name for it in statements if it.is_load for name in made_by(it)}
        found, count = [], -1
        while count != len(found):
            count = len(found)
            for it in statements:
                if it not in found and (it.said not in before or not it.is_load and names & it.names):
                    found.append(it)
                    names |= made_by(it)
        return found


def of_package(texts, path):
    """What calls of `package` say, and of macros that call it, with what these macros say."""
    macros = {name: found[symbol] for load in texts.loads.get(path, ()) for found in [texts.callers_of_package(load.file)]
              for name, symbol in load.symbols.items() if symbol in found}
    called = [it for it in texts.statements(path) or () if function_of(it.node) in {"package", *macros}]
    return [(it.said, macros.get(function_of(it.node))) for it in called]


def made_by(statement):
    """The names that a statement binds, or whose values it changes."""
    match statement.node:
        case ast.Expr(value=ast.Call(args=[_, *rest], keywords=named)) if statement.is_load:
            return {it.value for it in rest if isinstance(it, ast.Constant)} | {it.arg for it in named}
        case ast.Expr(value=ast.Call(func=ast.Attribute(value=ast.Name(id=name)))):
            return {name}
        case node:
            return set(bound_by(node))
