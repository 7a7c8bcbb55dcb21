"""Faults of a file's names and loads: takes the sources, the fault and the file's tree; gives line, column and reason."""
import ast
import os

from bzlq.hints import labels
from bzlq.hints.functions import UNIVERSE
from bzlq.hints.suggestions import did_you_mean

BUILD_NAMES = ("glob", "package", "package_name", "exports_files", "package_group", "licenses", "load")


def at(node, reason):
    """The place of a node, with a reason."""
    return node.lineno, node.col_offset + 1, reason


def statement_of(tree, line):
    """The statement at the top that this line is in."""
    return next((it for it in tree.body if it.lineno <= line <= it.end_lineno), None)


def bound(tree):
    """The names that a file binds, each with the statement that binds it first."""
    found = {}
    for node in tree.body:
        names = [node.name] if isinstance(node, ast.FunctionDef) else []
        if isinstance(node, ast.Assign | ast.AugAssign):
            names = [it.id for it in ast.walk(node) if isinstance(it, ast.Name) and isinstance(it.ctx, ast.Store)]
        for name in names:
            found.setdefault(name, node)
    return found


def loads(tree):
    """The load statements: the call, the label's text, and the clauses as (name, symbol, node)."""
    for node in tree.body:
        match node:
            case ast.Expr(value=ast.Call(func=ast.Name(id="load"), args=[ast.Constant(value=str() as text), *rest], keywords=named) as call):
                clauses = [(it.value, it.value, it) for it in rest if isinstance(it, ast.Constant)]
                yield call, text, clauses + [(it.arg, it.value.value, it.value) for it in named if isinstance(it.value, ast.Constant)]


def left_out(sources, fault, tree):
    """What the language leaves out in a statement."""
    called = set()
    for node in ast.walk(statement_of(tree, fault.line) or tree):
        match node:
            case ast.Call(func=ast.Attribute() as of):
                called.add(of)
                called.add(of.value)
            case ast.Lambda():
                return at(node, "lambda is left out: write a def")
            case ast.BinOp(op=ast.Div()) | ast.AugAssign(op=ast.Div()):
                return at(node, "/ is left out, since there are no floats: write //")
            case ast.FunctionDef(body=body):
                inner = next((it for part in body for it in ast.walk(part) if isinstance(it, ast.FunctionDef)), None)
                if inner:
                    return at(inner, f"the def {inner.name} inside the def {node.name} is left out: move it to the top of the file")
            case ast.Attribute(value=of, attr=member) if node not in called:
                return at(node, f"'{ast.unparse(of)[:30]}.{member}' is a member that isn't called, which is left out")
            case ast.Name(id="native") if node not in called:
                return at(node, "'native' elsewhere than in native.rule(..)")
    return None


def not_in_build(sources, fault, tree):
    """What belongs into a .bzl file."""
    node = statement_of(tree, fault.line)
    for part in ast.walk(node) if node else ():
        match part:
            case ast.FunctionDef(name=name):
                return at(part, f"a BUILD file has no def: move {name} into a .bzl file and load it")
            case ast.If() | ast.For():
                what = "if" if isinstance(part, ast.If) else "for"
                return at(part, f"a BUILD file has no {what} statement: move it into a macro, or write a {'conditional expression' if what == 'if' else 'comprehension'}")
            case ast.Call(args=given, keywords=named) if any(isinstance(it, ast.Starred) for it in given) or any(it.arg is None for it in named):
                return at(part, "a call in a BUILD file has no * or ** argument")
    return None


def unknown_name(sources, fault, tree):
    """A name that nothing binds: the .bzl file that has it, or a word that is near."""
    name, is_build = fault.detail, not sources.file_of(fault.label).endswith(".bzl")
    node = next((it for it in ast.walk(tree) if isinstance(it, ast.Name) and it.id == name and it.lineno >= fault.line), None)
    node = node or next((it for it in ast.walk(tree) if isinstance(it, ast.Attribute) and it.attr == name and it.lineno >= fault.line), None)
    place = at(node, "") if node else (fault.line, 1, "")
    known = {*UNIVERSE, *bound(tree), *(it[0] for _, _, clauses in loads(tree) for it in clauses), "True", "False", "None"}
    known |= bound_around(node, tree) if isinstance(node, ast.Name) else {*BUILD_NAMES, *sources.schema}
    if is_build:
        known |= {*BUILD_NAMES, *sources.schema}
    near = did_you_mean(name, known)
    of_native = next((it for it in ast.walk(tree) if isinstance(it, ast.Attribute) and it.value is node), None) if is_build and name == "native" else None
    is_called = any(isinstance(it, ast.Call) and it.func is node for it in ast.walk(tree))
    if of_native:
        near = f": it is for .bzl files; in a BUILD file write {of_native.attr}(..)"
    elif not is_build and name in sources.schema and isinstance(node, ast.Name):
        near = f": in a .bzl file a rule is native.{name}"
    elif label := file_with(sources, name, fault.label):
        near = f"; {label} has it: load(\"{label}\", \"{name}\")"
    elif not near and isinstance(node, ast.Name) and not is_called:
        near = f': write "{name}" if a text is meant'
    elif not near and is_build:
        near = ": load it, or declare the rule in rules.schema (bzlq stubs writes one)"
    return (*place[:2], f"name '{name}' is not defined{near}")


def bound_around(node, tree):
    """The names that the function around a node binds, or takes as parameters."""
    around = statement_of(tree, node.lineno)
    within = list(ast.walk(around)) if isinstance(around, ast.FunctionDef) else []
    return {it.arg for it in within if isinstance(it, ast.arg)} | {it.id for it in within if isinstance(it, ast.Name) and isinstance(it.ctx, ast.Store)}


def file_with(sources, name, label):
    """The label of a .bzl file that binds a name: of the nearest that does."""
    if name.startswith("_"):
        return ""
    here = os.path.dirname(sources.file_of(label))
    found = []
    for path in sources.paths:
        if path.endswith(".bzl") and not path.startswith("external/") and f"{name}" in sources.text(path):
            tree = sources.tree(path)
            if tree and name in bound(tree):
                found.append((len(os.path.relpath(os.path.dirname(path) or ".", here or ".").split("/")), path))
    if not found:
        return ""
    path = min(found)[1]
    package = sources.owner(path)
    return f"//{package}:{path[len(package):].lstrip('/')}"


def rebound(sources, fault, tree):
    """A name that is bound again at the top of a file."""
    name = fault.detail
    nodes = [it for it in tree.body if name in bound(ast.Module([it], []))]
    loaded = next((it[2] for _, _, clauses in loads(tree) for it in clauses if it[0] == name), None)
    first = loaded or (nodes[0] if nodes else None)
    how = "loaded" if loaded else "bound"
    return (fault.line, 1, f"'{name}' is {how} in line {first.lineno} already") if first is not None else None


def bound_twice(sources, fault, tree):
    """A name that is loaded twice."""
    nodes = [it[2] for _, _, clauses in loads(tree) for it in clauses if it[0] == fault.detail]
    return at(nodes[1], f"'{fault.detail}' is loaded in line {nodes[0].lineno} already") if len(nodes) > 1 else None


def bad_flow(sources, fault, tree):
    """A statement where it may not be."""
    node = statement_of(tree, fault.line)
    if isinstance(node, ast.If | ast.For):
        what = "an if" if isinstance(node, ast.If) else "a for"
        return at(node, f"{what} statement at the top of a .bzl file: put it into a function, or write {'a conditional expression' if what == 'an if' else 'a comprehension'}")

    def look(nodes, in_function, in_loop):
        for it in nodes:
            if isinstance(it, ast.Return) and not in_function:
                return at(it, "return outside a function")
            if isinstance(it, ast.Break | ast.Continue) and not in_loop:
                return at(it, f"{'break' if isinstance(it, ast.Break) else 'continue'} outside a loop")
            if in_function and isinstance(it, ast.Expr) and isinstance(it.value, ast.Call) and getattr(it.value.func, "id", "") == "load":
                return at(it, "load inside a function: loads are at the top of a file")
            inner = [*getattr(it, "body", []), *getattr(it, "orelse", [])]
            if found := look(inner, in_function or isinstance(it, ast.FunctionDef), (in_loop or isinstance(it, ast.For)) and not isinstance(it, ast.FunctionDef)):
                return found
        return None
    return look([node], False, False) if node else None


def double_parameter(sources, fault, text):
    """(Python doesn't parse such a file.)"""
    line = text.split("\n")[fault.line - 1]
    column = line.rfind(fault.detail) + 1
    return fault.line, max(column, 1), f"two parameters are called '{fault.detail}'"


def load_at(fault, tree):
    """The load that a fault is about."""
    found = [(call, text, clauses) for call, text, clauses in loads(tree) if call.lineno <= fault.line <= call.end_lineno]
    return found[0] if found else (None, "", [])


def bad_load_label(sources, fault, tree):
    """A label of a load that is none of a .bzl file."""
    call, text, _ = load_at(fault, tree)
    if call is None:
        return None
    if text.startswith("@@"):
        cure = "labels that begin with '@@' are left out"
    elif not text.endswith(".bzl"):
        cure = "it doesn't end in .bzl"
    elif "/" in text and not text.startswith(("//", "@")):
        cure = f"write '//{text.rpartition('/')[0]}:{text.rpartition('/')[2]}'"
    else:
        cure = f"write ':{text.lstrip(':')}'"
    return at(call.args[0], f"'{text}' is no label of a .bzl file: {cure}")


def no_file(sources, fault, tree):
    """A file that is loaded and isn't there."""
    call, text, _ = load_at(fault, tree)
    path = labels.path(fault.detail)
    names = [it.rpartition("/")[2] for it in sources.paths if os.path.dirname(it) == os.path.dirname(path) and it.endswith(".bzl")]
    return at(call.args[0] if call else tree.body[0], f"there is no file {path}{did_you_mean(os.path.basename(path), names)}")


def no_package(sources, fault, tree):
    """A package or repository that isn't there."""
    call, _, _ = load_at(fault, tree)
    node = call.args[0] if call else tree.body[0]
    return at(node, package_missing(sources, fault.detail))


def package_missing(sources, label):
    """Why a label's package isn't there."""
    repository, package, _ = labels.split(label)
    return sources.once(("package", repository, package), lambda: why_missing(sources, repository, package))


def why_missing(sources, repository, package):
    """Why a package of a repository isn't there."""
    directory = labels.directory(repository, package)
    if package == "external" and not repository:
        return "labels of //external are made by bind in a WORKSPACE file, which isn't read"
    if repository and not sources.has_directory(f"external/{repository}"):
        return f"the repository @{repository} is not in the workspace: bzlq stubs writes files that stand in for it"
    if sources.has_file(directory):
        above = sources.owner(directory)
        return f"'{directory}' is a file: write {labels.joined(repository, package[:len(package) - len(directory) + len(above)], directory[len(above):].lstrip('/'))}"
    if sources.has_directory(directory):
        return f"the directory {directory} is no package: it has no BUILD file"
    own = {it.removeprefix(f"external/{repository}").strip("/") if repository else it for it in sources.packages if it.startswith("external/") == bool(repository)}
    return f"there is no package '{package}'{did_you_mean(package, own)}"


def no_symbol(sources, fault, tree):
    """A symbol that the file which is loaded doesn't bind."""
    for _, text, clauses in loads(tree):
        for _, symbol, node in clauses:
            path = sources.file_of(loaded_label(sources, fault.label, text))
            loaded = sources.tree(path) if path else None
            if symbol == fault.detail and loaded is not None and symbol not in bound(loaded):
                passed = any(it[0] == symbol for _, _, inner in loads(loaded) for it in inner)
                why = f": it loads '{symbol}' itself, which is not passed on" if passed else did_you_mean(symbol, bound(loaded))
                return at(node, f"'{text}' has no '{symbol}'{why}")
    return None


def loaded_label(sources, label, text):
    """The label in full that the text of a load in a file stands for."""
    repository, package, _ = labels.split(label)
    try:
        return labels.joined(*labels.split(text, repository, package))
    except labels.BadLabel:
        return text


def private_symbol(sources, fault, tree):
    """A symbol that is loaded and begins with `_`."""
    node = next((it[2] for _, _, clauses in loads(tree) for it in clauses if it[1] == fault.detail), None)
    return at(node, f"'{fault.detail}' is private to its file, since it begins with '_'") if node else None


def cycle(sources, fault, tree):
    """The cycle that loads lead into, by the first load of each file that does."""
    call, _, _ = load_at(fault, tree)
    place = at(call.args[0], "") if call else (fault.line, 1, "")
    found = way_round(sources, fault.label)
    return (*place[:2], "the loads go round: " + " -> ".join(found) if found else f"loads lead from {fault.detail} into a cycle")


def way_round(sources, label):
    """The labels of the shortest way from a file back to itself; else of the cycle that its loads lead into."""
    def next_of(it):
        path = sources.file_of(it)
        tree = sources.tree(path) if path else None
        return [loaded_label(sources, it, text) for _, text, _ in loads(tree)] if tree else []

    ways, seen = [[label]], set()
    while ways:
        way = ways.pop(0)
        for it in next_of(way[-1]):
            if it in way:
                return [*way[way.index(it):], it]
            if it not in seen:
                seen.add(it)
                ways.append([*way, it])
    return []


def crosses(sources, fault, tree):
    """A load by way of a package that doesn't own the file."""
    call, text, _ = load_at(fault, tree)
    if call is None or not fault.detail:
        return None
    path = labels.path(fault.detail)
    owner = sources.owner(path)
    return at(call.args[0], f"'{text}' crosses the package {owner}: write '//{owner}:{path[len(owner) + 1:]}'")


def load_depth(sources, fault, tree):
    """A load from which too many others lead on."""
    call, _, _ = load_at(fault, tree)
    return at(call.args[0] if call else tree.body[0], "more than 1,000 loads lead on from here, one after another")


def load_failed(sources, fault, tree):
    """A load of a file that has a fault."""
    call = next((call for call, text, _ in loads(tree) if loaded_label(sources, fault.label, text) == fault.detail), None)
    return (*(at(call.args[0], "")[:2] if call else (fault.line, 1)), f"{fault.detail} has a fault of its own")


NAMES = {"F12": left_out, "F13": not_in_build, "F20": unknown_name, "F21": rebound, "F22": bound_twice, "F23": bad_flow, "F30": bad_load_label,
         "F31": no_file, "F32": no_package, "F33": no_symbol, "F34": private_symbol, "F35": cycle, "F36": load_failed, "F38": load_depth}
