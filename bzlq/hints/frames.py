"""What an evaluation has while it runs: modules, frames of variables, and how a function or a turn of a loop ends."""
import ast


class Ended(Exception):
    """`return`, `break` or `continue`."""

    def __init__(self, how, value=None):
        super().__init__(how)
        self.how, self.value = how, value


class Module:
    """A file while it is evaluated: its globals, and the names that it has loaded."""

    def __init__(self, path, is_build):
        self.path, self.is_build, self.globals, self.loaded = path, is_build, {}, {}


class Frame:
    """The variables of a function or a comprehension, and what is around it."""

    def __init__(self, module, bound, outer=None):
        self.module, self.bound, self.outer, self.values = module, bound, outer, {}


def bound_in(function):
    """The names that the statements and parameters of a function bind."""
    given = function.args
    found = {it.arg for it in [*given.args, *given.kwonlyargs, *(it for it in (given.vararg, given.kwarg) if it)]}
    for part in ast.walk(ast.Module(function.body, [])):
        targets = part.targets if isinstance(part, ast.Assign) else [part.target] if isinstance(part, ast.AugAssign | ast.For) else []
        found |= {it.id for target in targets for it in ast.walk(target) if isinstance(it, ast.Name) and isinstance(it.ctx, ast.Store)}
    return found


def stored(node):
    """The names that a statement binds."""
    if isinstance(node, ast.FunctionDef):
        return {node.name}
    return {it.id for it in ast.walk(node) if isinstance(it, ast.Name) and isinstance(it.ctx, ast.Store)}
