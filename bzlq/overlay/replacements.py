"""What stands for an expression that `bq` leaves out, where the language can say the same: `depset(x).to_list()`, `Label(x).name` and the like.

Takes a node of Python's tree; gives texts and parts of the node by turns, in the order of the file, which are written in its place.
"""
import ast
from dataclasses import dataclass

# what a member of a label is, told from the label's text `t`
LABEL_MEMBERS = {
    "name": 't.partition(":")[2] or t.rpartition("/")[2].lstrip("@")',
    "package": 't.partition("//")[2].partition(":")[0] if "//" in t else "" if t.startswith("@") else native.package_name()',
    "workspace_name": 't[1:].partition("//")[0] if t.startswith("@") else ""',
    "repo_name": 't[1:].partition("//")[0] if t.startswith("@") else ""',
}
# what only files and macros of a WORKSPACE may call, which declares no target
WORKSPACE_FUNCTIONS = ("bind", "local_repository", "new_local_repository", "register_execution_platforms", "register_toolchains")
# what stands for a call of a member of `native` that bq leaves out, as for a workspace in which nothing was declared before
NATIVE_VALUES = {"repository_name": '"@"', "repo_name": '""', "module_name": "None", "module_version": "None", "existing_rules": "{}", "existing_rule": "None",
                 **dict.fromkeys(WORKSPACE_FUNCTIONS, "None")}
# functions whose calls are replaced; a file or function that binds such a name means something else
NAMES = ("Label", "abs", "depset", "hasattr", "json", *NATIVE_VALUES)


# parameters of what Bazel runs after loading, whose members are no fields of the file's own structs
CONTEXTS = ("ctx", "native", "repository_ctx", "module_ctx", "target")


# functions that give data of data
OF_DATA = frozenset("bool dict enumerate int len list max min range repr reversed sorted str struct tuple zip".split())
# what values have as methods: a struct with a field of such a name isn't read as a dict
METHODS = frozenset(name for kind in (str, list, dict) for name in dir(kind) if not name.startswith("_"))


def struct_makers(tree):
    """The functions of a file that make structs, and the statements that bind structs of data."""
    return [node for node in tree.body if isinstance(node, ast.FunctionDef) and any(map(is_struct, ast.walk(node)))] + data_structs(tree)


def data_structs(tree):
    """The statements at the top of a file that bind a name to structs, in which are data alone: no functions, and nothing of other files."""
    data, found = set(OF_DATA), []
    called = {it.func.attr for it in ast.walk(tree) if isinstance(it, ast.Call) and isinstance(it.func, ast.Attribute)} | METHODS
    for node in tree.body:
        match node:
            case ast.Assign(targets=[ast.Name(id=name)], value=value) if is_data(value, data):
                data.add(name)
                structs = [it for it in ast.walk(value) if is_struct(it)]
                if structs and all(called.isdisjoint(fields_of(it)) for it in structs):
                    found.append(node)
    return found


def is_data(value, names):
    """Whether a value is made of constants and of data with these names."""
    nodes = list(ast.walk(value))
    names = names | {it.id for it in nodes if isinstance(it, ast.Name) and isinstance(it.ctx, ast.Store)}
    return not any(isinstance(it, ast.Lambda) or isinstance(it, ast.Name) and it.id not in names
                   or isinstance(it, ast.Call) and getattr(it.func, "id", "") == "struct" and not (is_struct(it) and all(key.arg for key in it.keywords)) for it in nodes)


def records_in(makers):
    """The names that statements bind to structs of data, each with the fields of these, inner ones too."""
    found = {}
    for node in makers:
        if isinstance(node, ast.Assign):
            found[node.targets[0].id] = sorted({name for it in ast.walk(node.value) if is_struct(it) for name in fields_of(it)})
    return found


def structs_in(tree, makers):
    """The fields of the structs that these functions and statements of a file make, and the names whose members aren't fields: those that it loads, or that are structs
    of other fields. No fields where one is called, as a function that a struct has: a dict has no such member."""
    fields = {name for node in makers for it in ast.walk(node) if is_struct(it) for name in fields_of(it)}
    called = {it.func.attr for it in ast.walk(tree) if isinstance(it, ast.Call) and isinstance(it.func, ast.Attribute)} if fields else set()
    others = {it.id for node in tree.body if isinstance(node, ast.Assign) and any(is_struct(part) and not fields_of(part) <= fields for part in ast.walk(node.value))
              for part in node.targets for it in ast.walk(part) if isinstance(it, ast.Name)}
    loads = [node.value for node in tree.body if isinstance(node, ast.Expr) and isinstance(node.value, ast.Call) and getattr(node.value.func, "id", "") == "load"]
    others |= {part.value for it in loads for part in it.args[1:] if isinstance(part, ast.Constant)} | {key.arg for it in loads for key in it.keywords}
    return (frozenset(), frozenset()) if fields & called else (frozenset(fields), frozenset(it for it in others if isinstance(it, str)))


def is_struct(node):
    """Whether a node is a struct that is made of named values, which counts as true as a dict of these does."""
    return isinstance(node, ast.Call) and isinstance(node.func, ast.Name) and node.func.id == "struct" and bool(node.keywords) and not node.args


def fields_of(call):
    """The fields that a call shows."""
    return {key.arg for key in call.keywords if key.arg}


def struct(call):
    """A dict with what a struct has."""
    pieces = ["dict("]
    for key in call.keywords:
        pieces += [f"{key.arg} = " if key.arg else "**", key.value, ", "]
    return Replacement("a struct", [*pieces[:-1], ")"])


def field(node):
    """An element of a dict in the place of a field of a struct."""
    return Replacement("a struct", [node.value, f'["{node.attr}"]'])


def is_of_own(name, others):
    """Whether a member of what has this name at its root may be a field of a struct of the file's own."""
    return name not in others and name not in CONTEXTS


def root_name(node):
    """The name at the root of members, elements and calls; empty where there is none."""
    while not isinstance(node, ast.Name):
        match node:
            case ast.Attribute(value=of) | ast.Subscript(value=of) | ast.Call(func=of):
                node = of
            case _:
                return ""
    return node.id


# what stands for a call of `existing_rules` among the names that a file uses: no file binds it
EXISTING = "native.existing_rules"
# the nodes that may be replaced
REPLACED = (ast.Call, ast.Attribute, ast.BinOp)


@dataclass
class Replacement:
    """What stands in the place of a node."""
    what: str  # as the report names it
    pieces: list  # texts, and nodes whose own texts stay
    wanted: str = ""  # what the places of the nodes take


def label_in(call):
    """The text in a call of `Label`, or of `native.package_relative_label`, that is given one."""
    match call:
        case ast.Call(func=ast.Name(id="Label") | ast.Attribute(value=ast.Name(id="native"), attr="package_relative_label"), args=[text], keywords=[]):
            return text
        case _:
            return None


def asks_for_rules(nodes):
    """The calls among nodes that ask which rules there are, but for those of which only is asked whether a name is among them."""
    asked = {id(part) for it in nodes if isinstance(it, ast.Compare) and isinstance(it.ops[-1], ast.In | ast.NotIn) for part in ast.walk(it.comparators[-1])}
    return [it for it in nodes if isinstance(it, ast.Call) and id(it) not in asked and is_for_rules(it.func)]


def is_for_rules(called):
    """Whether what is called gives all rules that there are."""
    match called:
        case ast.Name(id="existing_rules") | ast.Attribute(value=ast.Name(id="native"), attr="existing_rules"):
            return True
        case _:
            return False


# what may bind a name
BINDING = (ast.Assign, ast.For, ast.comprehension, ast.AugAssign, ast.arg)


def labels_bound(nodes):
    """The names that the nodes of a function bind to calls of `Label`, and to nothing else."""
    found, others = set(), set()
    for part in nodes:
        if not isinstance(part, BINDING):
            continue
        match part:
            case ast.Assign(targets=[ast.Name(id=name)], value=value) if label_in(value):
                found.add(name)
            case ast.Assign(targets=targets):
                others |= {it.id for target in targets for it in ast.walk(target) if isinstance(it, ast.Name)}
            case ast.For(target=target) | ast.comprehension(target=target) | ast.AugAssign(target=target):
                others |= {it.id for it in ast.walk(target) if isinstance(it, ast.Name)}
            case ast.arg(arg=name):
                others.add(name)
    return found - others


def depset(call):
    """A list without what occurs in it before, as `to_list` gives it."""
    given = [("direct", part) for part in call.args[:1]] + [(key.arg, key.value) for key in call.keywords]
    given = sorted((it for it in given if it[0] in ("direct", "transitive")), key=lambda it: (it[1].lineno, it[1].col_offset))
    pieces = ["{part: None for parts in "]
    for at, (name, node) in enumerate(given):
        before, after = ("[(", ")]") if name == "direct" else ("(", ")")
        pieces += [(" + " if at else "") + before, node, after]
    return Replacement("a depset", [*pieces, " for part in parts}.keys()"] if given else ["[]"], "list")


def replacement(node, bound=(), labels=(), structs=(frozenset(), frozenset())):
    """What stands for a node; nothing where the table hasn't it. `bound` are the names that the file and the function around bind, `structs` what
    structs_in says of the file."""
    fields, others = structs
    match node:
        case ast.Call(func=ast.Name(id="depset")) if "depset" not in bound:
            return depset(node)
        case ast.Call(func=ast.Attribute(value=of, attr="to_list"), args=[], keywords=[]):
            return Replacement("a depset", ["(", of, ")"], "list")
        case ast.Attribute(value=of, attr=member) if member in LABEL_MEMBERS and label_in(of) and "Label" not in bound:
            return Replacement("a member of a label", [f"[({LABEL_MEMBERS[member]}) for t in [", label_in(of), "]][0]"])
        case ast.Attribute(value=ast.Name(id=name) as of, attr=member) if member in LABEL_MEMBERS and name in labels:
            return Replacement("a member of a label", [f"[({LABEL_MEMBERS[member]}) for t in [", of, "]][0]"])
        case ast.Call() if fields and is_struct(node) and "struct" not in bound and "dict" not in bound and fields_of(node) <= fields:
            return struct(node)
        case ast.Call(func=ast.Name(id="struct"), args=[], keywords=[]) if "struct" not in bound:
            # (it counts as true, so the dict isn't empty)
            return Replacement("a struct", ['{"": None}'])
        case ast.Attribute(value=of, attr=member, ctx=ast.Load()) if member in fields and root_name(of) in bound and is_of_own(root_name(of), others):
            return field(node)
        case ast.Call(func=ast.Name(id="abs"), args=[of], keywords=[]) if "abs" not in bound:
            return Replacement("a function", ["max([sign * (", of, ") for sign in (1, -1)])"])
        case ast.Call(func=ast.Name(id="hasattr"), args=[ast.Name(id=name), ast.Constant()]) if "hasattr" not in bound:
            # (asked of what Bazel gives: whether it is new enough)
            return Replacement("a function", ["True"]) if name == "native" or name.endswith("_common") else None
        case ast.Call(func=ast.Attribute(value=ast.Name(id="json"), attr="encode" | "encode_indent"), args=[of, *_]) if "json" not in bound:
            return Replacement("a function", ["repr(", of, ")"])
        case ast.Call(func=ast.Name(id=name)) if name in NATIVE_VALUES and name not in bound:
            # (as BUILD files call what .bzl files call as a member of `native`)
            return Replacement("a function", [NATIVE_VALUES[name]])
        case ast.BinOp(op=ast.Div(), left=left, right=right):
            return Replacement("a division", ["((", left, ") // (", right, "))"])
        case _:
            return None
