"""What the text of a .bzl file shows of the attributes of rules and symbolic macros: takes a value's tree, gives a list of parts, of which later ones count.

A part is (ATTRIBUTE, its name, its type, its default, its limits), (GLOBAL, a name whose attributes are among them), (GLOBAL, a name that is an attribute, its own name),
or (UNKNOWN,) for what the text doesn't show. A type is empty where a schema has none such, and None where it isn't shown. A default is NONE where none is
given, HIDDEN where it isn't shown, (VALUE, it), or (NAMED, a global). Limits are whether each call has to give it, and the texts that it takes, if
not all.
"""
import ast

from bzlq.overlay.literals import constant, summed

ATTRIBUTE, GLOBAL, UNKNOWN, VALUE, NAMED = "attribute", "global", "unknown", "value", "named"
NONE, HIDDEN = (), ("hidden",)
NO_LIMITS = (False, ())
# the types of a schema, by the functions of `attr`
TYPES = {name: name for name in "bool int label label_list output output_list string string_list".split()}
# how many entries of a dict are looked at: no rule has so many attributes
MOST_ENTRIES = 1000


def rule_parts(node):
    """The parts of the attributes that a call of `rule` shows, or one that makes a test of skylib's; nothing for another value."""
    match node:
        case ast.Call(func=ast.Name(id="rule")):
            found = []
        case ast.Call(func=ast.Attribute(value=ast.Name(id="analysistest" | "unittest"), attr="make")):
            found = [(ATTRIBUTE, "target_under_test", "label", NONE, NO_LIMITS)]
        case _:
            return None
    given = {key.arg: key.value for key in node.keywords}
    found += [(UNKNOWN,)] if None in given else []
    for value in (given.get("parent"), *node.args[2:3], given.get("attrs")):
        found += dict_parts(value) if value else []
    # (a function that gives attributes their values)
    return found + ([(UNKNOWN,)] if "initializer" in given else [])


def macro_parts(node):
    """The function of a symbolic macro, and the parts of the attributes that the call shows which makes it; nothing for another value."""
    match node:
        case ast.Call(func=ast.Name(id="macro"), keywords=keywords):
            given = {key.arg: key.value for key in keywords}
        case _:
            return None
    function, attributes = given.get("implementation"), given.get("attrs")
    return (function.id, dict_parts(attributes) if attributes else []) if isinstance(function, ast.Name) else None


def dict_parts(node):
    """The parts that a dict of attributes shows, or dicts that are put together."""
    match node:
        case ast.Name(id=name):
            return [(GLOBAL, name)]
        case ast.Dict(keys=keys, values=values):
            return [part for key, value in zip(keys, values) for part in ([entry(key, value)] if key else dict_parts(value))]
        case ast.Call(func=ast.Name(id="dict") | ast.Attribute(value=ast.Name(id="dicts"), attr="add"), args=args, keywords=keywords):
            found = [part for it in args for part in dict_parts(it)]
            return found + [part for key in keywords for part in ([entry(ast.Constant(key.arg), key.value)] if key.arg else dict_parts(key.value))]
        case ast.BinOp(op=ast.BitOr()):
            return [part for it in summed(node) for part in dict_parts(it)]
        case ast.Constant(value=None):
            return []
        case _:
            # (what a function makes of dicts mostly has what they have)
            within = [it for it in ast.walk(node) if isinstance(it, ast.Dict | ast.Name)]
            pairs = [pair for it in within if isinstance(it, ast.Dict) for pair in zip(it.keys, it.values)]
            called = {id(it.func) for it in ast.walk(node) if isinstance(it, ast.Call)}
            names = [(GLOBAL, it.id) for it in within if isinstance(it, ast.Name) and id(it) not in called and it.id != "attr"]
            return [(UNKNOWN,), *names, *(entry(key, value) for key, value in pairs if is_attribute(value))]


def global_parts(node):
    """The parts that the value of a global shows; nothing where it doesn't look like a dict of attributes, or one of them."""
    match node:
        case ast.Call() if is_attribute(node):
            return [attribute("", node)]
        case ast.Dict(keys=keys, values=values) if len(keys) <= MOST_ENTRIES:
            is_one = any(key is None or isinstance(value, ast.Name) or is_attribute(value) for key, value in zip(keys, values))
            return dict_parts(node) if is_one or not keys else None
        case ast.Call(func=ast.Name(id="dict") | ast.Attribute(value=ast.Name(id="dicts"), attr="add")):
            return dict_parts(node)
        case ast.BinOp(op=ast.BitOr()):
            return dict_parts(node)
        case _:
            return None


def changed_parts(node):
    """The global that a statement changes, and the parts that it adds: `x["a"] = ..`, `x.update(..)`, `x += ..`; no global for another statement."""
    match node:
        case ast.Assign(targets=[ast.Subscript(value=ast.Name(id=name), slice=key)], value=value):
            return name, [entry(key, value)]
        case ast.Expr(value=ast.Call(func=ast.Attribute(value=ast.Name(id=name), attr="update"), args=args, keywords=keywords)):
            return name, dict_parts(ast.Call(ast.Name("dict"), args, keywords))
        case ast.AugAssign(target=ast.Name(id=name)) | ast.Expr(value=ast.Call(func=ast.Attribute(value=ast.Name(id=name)))):
            return name, [(UNKNOWN,)]
        case _:
            return "", []


def is_attribute(node):
    """Whether a value is a call of a member of `attr`."""
    return isinstance(node, ast.Call) and isinstance(node.func, ast.Attribute) and isinstance(node.func.value, ast.Name) and node.func.value.id == "attr"


def entry(key, value):
    """The part that an entry of a dict is."""
    name = key.value if isinstance(key, ast.Constant) and isinstance(key.value, str) else ""
    if not name:
        return (UNKNOWN,)
    if isinstance(value, ast.Name):
        return GLOBAL, value.id, name
    return attribute(name, value) if is_attribute(value) else (ATTRIBUTE, name, None, HIDDEN, NO_LIMITS)


def attribute(name, call):
    """The part that a call of a member of `attr` makes."""
    given, kind = {key.arg: key.value for key in call.keywords}, TYPES.get(call.func.attr, "")
    value = given.get("default")
    if None in given:
        default = HIDDEN
    elif value is None or getattr(given.get("mandatory"), "value", False) is True:
        default = NONE
    elif isinstance(value, ast.Name):
        default = (NAMED, value.id)
    else:
        default = default_of(constant(labels_as_texts(value)))
    return ATTRIBUTE, name, kind, default, limits_of(given)


def limits_of(given):
    """The limits that a call of a member of `attr` gives."""
    texts = getattr(given.get("values"), "elts", ())
    values = [it.value for it in texts if isinstance(it, ast.Constant) and isinstance(it.value, str)]
    return getattr(given.get("mandatory"), "value", False) is True, tuple(values) if len(values) == len(texts) else ()


def labels_as_texts(node):
    """The tree of a value with a text in the place of each `Label("..")`."""
    match node:
        case ast.Call(func=ast.Name(id="Label"), args=[ast.Constant(value=str()) as text], keywords=[]):
            return text
        case ast.List(elts=parts) if len(parts) <= MOST_ENTRIES:
            return ast.List([labels_as_texts(it) for it in parts], ast.Load())
        case _:
            return node


def default_of(value):
    """The default that the tuple of a value is; none where types have that anyway."""
    return HIDDEN if not value else (VALUE, value[0]) if value[0] else NONE
