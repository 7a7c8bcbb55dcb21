"""Values of Starlark as values of Python, and what `bq`'s faults say of them.

Values may be shared, so that a small one has very many parts: `spend` counts each that is looked at, and ends it where they are too many.
"""
import ast
import time

MAX = (1 << 63) - 1
LONGEST = 1 << 20


class Wrong(Exception):
    """A fault that was met while a file was evaluated again: its number and reason, where it was, and the calls around, the innermost first."""

    def __init__(self, number, reason, place=None):
        super().__init__(reason)
        self.number, self.reason, self.place = number, reason, place
        self.calls = []  # (path, node of the call, name of the function that was called)


class Unknown(Exception):
    """Something that isn't evaluated here."""


class Budget:
    """How many parts of values may still be looked at or made, and until when."""

    def __init__(self):
        self.renew(0, 0)

    def renew(self, parts, seconds):
        """Gives as many parts, and as much time, as an evaluation may take."""
        self.left, self.until, self.turns = parts, time.process_time() + seconds, 0

    def is_over(self):
        """Whether it is used up."""
        return self.left < 0 or time.process_time() > self.until

    def spend(self, count=1):
        """Spends parts; raises `Unknown` where there are none left."""
        self.left -= count
        self.turns += 1
        # (to look at the clock takes longer than most steps)
        if self.left < 0 or self.turns % 64 == 0 and self.is_over():
            raise Unknown("the evaluation takes too long")


BUDGET = Budget()
spend = BUDGET.spend


class Function:
    """A function that a file defines."""

    def __init__(self, node, module, defaults):
        self.name, self.node, self.module, self.defaults = node.name, node, module, defaults
        self.bound = None  # the names that it binds, once it was called


class Builtin:
    """A function of the language or of BUILD files."""

    def __init__(self, name, call):
        self.name, self.call = name, call


class Attribute:
    """What a member of `attr` gives."""

    def __init__(self, kind, is_mandatory):
        self.kind, self.is_mandatory = kind, is_mandatory


class Rule:
    """A rule, of the schema or of a .bzl file."""

    def __init__(self, name, attributes, mandatory):
        self.name, self.attributes, self.mandatory = name, attributes, mandatory


TYPES = {
    type(None): "NoneType", bool: "bool", int: "int", str: "string", list: "list", tuple: "tuple", dict: "dict", range: "range",
    Function: "function", Builtin: "builtin_function_or_method", Rule: "rule", Attribute: "Attribute",
}


def type_of(value):
    """The name of a value's type."""
    return TYPES.get(type(value), "value")


def shown(value):
    """A value in short, for a message."""
    text = {None: "None", True: "True", False: "False"}.get(value) if isinstance(value, bool | type(None)) else None
    if text is None:
        text = f'"{value}"' if isinstance(value, str) else f"a {type_of(value)}" if isinstance(value, Function | Builtin | Rule) else repr(value)
    return text if len(text) <= 40 else text[:37] + "..."


def checked(value):
    """The value, where it is in the bounds of the language."""
    if type(value) is int and not -MAX - 1 <= value <= MAX:
        raise Wrong("F41", f"{value} does not fit into 64 bits")
    if isinstance(value, str | list | tuple | dict) and len(value) > LONGEST:
        raise Wrong("F54", f"a {type_of(value)} of {len(value):,} {'bytes' if isinstance(value, str) else 'elements'}, and {LONGEST:,} are allowed")
    if isinstance(value, str | list | tuple | dict):
        spend(len(value) // 16 + 1)
    return value


def iterable(value):
    """The elements of a value."""
    if not isinstance(value, list | tuple | dict | range):
        raise Wrong("F40", f"a {type_of(value)} is not iterable: {shown(value)}")
    spend(min(len(value), MAX))
    return [plain(part) for part in value] if isinstance(value, dict) else list(value)


def plain(at):
    """A key of a dict as it was given."""
    return at[1] if isinstance(at, tuple) and len(at) == 2 and at[0] == "bool" and isinstance(at[1], bool) else at


def key(value, depth=0):
    """The value, where it can be a key."""
    spend()
    if depth > 64:
        raise Wrong("F55", "values are nested more than 64 deep")
    if isinstance(value, tuple):
        for part in value:
            key(part, depth + 1)
    elif not isinstance(value, str | int | type(None)):
        raise Wrong("F45", f"a {type_of(value)} can't be a key of a dict: {shown(value)}")
    return value


def as_key(value):
    """What stands for a key in a dict of Python, in which True is 1."""
    return ("bool", value) if isinstance(value, bool) else value


def quoted(text):
    """The `repr` of a string."""
    return '"' + text.replace("\\", "\\\\").replace('"', '\\"').replace("\n", "\\n") + '"'


def text_of(value, is_inner=False, depth=0):
    """`str` of a value."""
    if depth > 64:
        raise Wrong("F55", "values are nested more than 64 deep")
    spend()
    match value:
        case str():
            return quoted(value) if is_inner else value
        case list() | tuple() | dict():
            found, size = [], 0
            for part in value.items() if isinstance(value, dict) else value:
                text = ": ".join(text_of(plain(it), True, depth + 1) for it in part) if isinstance(value, dict) else text_of(part, True, depth + 1)
                size += len(text)
                found.append(text)
                if size > LONGEST:
                    raise Wrong("F54", f"the text of a {type_of(value)} has more than {LONGEST:,} bytes")
            before, after = {"list": "[]", "tuple": "()", "dict": "{}"}[type_of(value)]
            return before + ", ".join(found) + ("," if isinstance(value, tuple) and len(value) == 1 else "") + after
        case Function() | Builtin() | Rule() | Attribute():
            return f"<{type_of(value)}>"
        case _:
            return str(value)


OPERATORS = {ast.Add: "+", ast.Sub: "-", ast.Mult: "*", ast.FloorDiv: "//", ast.Mod: "%", ast.BitOr: "|", ast.BitAnd: "&", ast.BitXor: "^",
             ast.LShift: "<<", ast.RShift: ">>"}


def percent(left, right):
    """A format by `%`."""
    values, found, at = list(right) if isinstance(right, tuple) else [right], "", 0
    while at < len(left):
        if left[at] != "%":
            found, at = found + left[at], at + 1
            continue
        sign = left[at + 1:at + 2]
        if sign == "%":
            found += "%"
        elif sign not in ("s", "r", "d") or not sign:
            raise Wrong("F59", f"'%{sign}' is no conversion: there are %s, %r, %d and %%")
        elif not values:
            raise Wrong("F59", f"too few values for the format {shown(left)}")
        else:
            value = values.pop(0)
            if sign == "d" and type(value) is not int:
                raise Wrong("F59", f"%d wants an int, and gets a {type_of(value)}: {shown(value)}")
            found += text_of(value, sign == "r")
        at += 2
        checked(found)
    if values:
        count = len(right) if isinstance(right, tuple) else 1
        raise Wrong("F59", f"too many values for the format {shown(left)}: {count} are given")
    return found


def shift(left, right, is_left):
    """The value of `<<` or `>>`."""
    if not 0 <= right <= 63:
        raise Wrong("F57", f"a shift by {right}: 0 to 63 are allowed")
    return left << right if is_left else left >> right


def integers(symbol, left, right):
    """An operator of two integers."""
    if symbol in ("//", "%") and right == 0:
        raise Wrong("F42", f"{left} {symbol} 0")
    if symbol in ("<<", ">>"):
        return shift(left, right, symbol == "<<")
    return {"+": lambda: left + right, "-": lambda: left - right, "*": lambda: left * right, "//": lambda: left // right, "%": lambda: left % right,
            "|": lambda: left | right, "&": lambda: left & right, "^": lambda: left ^ right}[symbol]()


def binary(symbol, left, right):
    """An operator of two values."""
    types = type(left), type(right)
    if types == (int, int):
        return checked(integers(symbol, left, right))
    if symbol == "%" and types[0] is str:
        return checked(percent(left, right))
    if symbol == "+" and types[0] is types[1] and types[0] in (str, list, tuple):
        return checked(left + right)
    if symbol == "*" and int in types and (types[0] in (str, list, tuple) or types[1] in (str, list, tuple)):
        value, count = (left, right) if types[1] is int else (right, left)
        if len(value) * max(count, 0) > LONGEST:
            raise Wrong("F54", f"{count:,} copies of {len(value):,} {'bytes' if isinstance(value, str) else 'elements'}, and {LONGEST:,} are allowed")
        return value * count
    if symbol == "|" and types == (dict, dict):
        return {**left, **right}
    raise Wrong("F40", f"unsupported operation: {type_of(left)} {symbol} {type_of(right)}, of {shown(left)} and {shown(right)}")


def same(left, right):
    """Whether two values are equal, by type and parts."""
    spend()
    if left is right or type(left) is not type(right):
        return left is right
    if isinstance(left, dict):
        return left.keys() == right.keys() and all(same(part, right[at]) for at, part in left.items())
    if isinstance(left, list | tuple):
        return len(left) == len(right) and all(same(*pair) for pair in zip(left, right))
    return left == right


def less(left, right):
    """Whether a value comes before another one."""
    spend()
    if type(left) is not type(right) or not isinstance(left, int | str | list | tuple):
        raise Wrong("F40", f"unsupported comparison: {type_of(left)} < {type_of(right)}, of {shown(left)} and {shown(right)}")
    if isinstance(left, list | tuple):
        pair = next((pair for pair in zip(left, right) if not same(*pair)), None)
        return less(*pair) if pair else len(left) < len(right)
    return left < right


def is_in(left, right):
    """The value of `in`."""
    if isinstance(right, dict):
        return as_key(key(left)) in right
    if isinstance(right, list | tuple):
        return any(same(left, part) for part in right)
    if isinstance(right, str) and isinstance(left, str) or isinstance(right, range) and type(left) is int:
        return left in right
    raise Wrong("F40", f"unsupported operation: {type_of(left)} in {type_of(right)}")


def compare(symbol, left, right):
    """The value of a comparison."""
    match symbol:
        case "==" | "!=":
            return same(left, right) is (symbol == "==")
        case "in" | "not in":
            return is_in(left, right) is (symbol == "in")
        case "<" | ">":
            return less(left, right) if symbol == "<" else less(right, left)
        case _:
            return not (less(right, left) if symbol == "<=" else less(left, right))


def index(value, at):
    """The element at a place."""
    if isinstance(value, dict):
        if as_key(key(at)) not in value:
            raise Wrong("F44", f"the dict has no key {shown(at)}")
        return value[as_key(at)]
    if not isinstance(value, str | list | tuple | range) or type(at) is not int:
        raise Wrong("F40", f"a {type_of(value)} has no index of type {type_of(at)}")
    if not -len(value) <= at < len(value):
        raise Wrong("F43", f"index {at} of a {type_of(value)} of {len(value)} element{'s' * (len(value) != 1)}")
    return value[at]
