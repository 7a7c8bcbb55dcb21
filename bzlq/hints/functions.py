"""The built-in functions and methods: takes their name and arguments, gives what they return, or raises what is wrong."""
import re

from bzlq.hints.suggestions import did_you_mean
from bzlq.hints.values import LONGEST, Builtin, Unknown, Wrong, as_key, checked, iterable, key, plain, same, shown, spend, text_of, type_of

# the methods of each type, with the least and the greatest number of arguments
METHODS = {
    str: {"capitalize": (0, 0), "count": (1, 3), "elems": (0, 0), "endswith": (1, 3), "find": (1, 3), "format": (0, 999), "index": (1, 3), "isalnum": (0, 0),
          "isalpha": (0, 0), "isdigit": (0, 0), "islower": (0, 0), "isspace": (0, 0), "istitle": (0, 0), "isupper": (0, 0), "join": (1, 1),
          "lower": (0, 0), "lstrip": (0, 1), "partition": (1, 1), "removeprefix": (1, 1), "removesuffix": (1, 1), "replace": (2, 3),
          "rfind": (1, 3), "rindex": (1, 3), "rpartition": (1, 1), "rsplit": (0, 2), "rstrip": (0, 1), "split": (0, 2), "splitlines": (0, 1),
          "startswith": (1, 3), "strip": (0, 1), "title": (0, 0), "upper": (0, 0)},
    list: {"append": (1, 1), "clear": (0, 0), "extend": (1, 1), "index": (1, 3), "insert": (2, 2), "pop": (0, 1), "remove": (1, 1)},
    dict: {"clear": (0, 0), "get": (1, 2), "items": (0, 0), "keys": (0, 0), "pop": (1, 2), "popitem": (0, 0), "setdefault": (1, 2),
           "update": (0, 1), "values": (0, 0)},
}
CHANGING = {list: {"append", "clear", "extend", "insert", "pop", "remove"}, dict: {"clear", "pop", "popitem", "setdefault", "update"}}


def arguments(name, count, least, most):
    """Checks how many arguments a function is given."""
    if not least <= count <= most:
        wanted = str(least) if least == most else f"{least} to {most}"
        raise Wrong("F52", f"{name} takes {wanted} argument{'s' * (wanted != '1')}, and {count} {'is' if count == 1 else 'are'} given")


def method(value, name):
    """The method of that name of a value."""
    known = METHODS.get(type(value), {})
    if name not in known:
        raise Wrong("F58", f"a {type_of(value)} has no method '{name}'{did_you_mean(name, known)}: {shown(value)}")
    return known[name]


def call_method(value, name, given, named):
    """What a method returns, or what is wrong."""
    least, most = method(value, name)
    if named and name not in ("format", "update"):
        raise Wrong("F52", f"{name} takes no argument by name, and is given '{next(iter(named))}'")
    arguments(name, len(given), least, most)
    if isinstance(value, str):
        return checked(of_string(value, name, given, named))
    return of_list(value, name, given) if isinstance(value, list) else of_dict(value, name, given, named)


def of_string(value, name, given, named):
    """Calls a method of a string."""
    if name == "elems":
        return list(value)
    if name == "format":
        return formatted(value, given, named)
    if name == "join":
        parts = iterable(given[0])
        for part in parts:
            if not isinstance(part, str):
                raise Wrong("F40", f"join wants strings, and gets a {type_of(part)}: {shown(part)}")
        fits(sum(len(part) + len(value) for part in parts))
        return value.join(parts)
    if name == "replace" and all(isinstance(it, str) for it in given[:2]):
        fits(len(value) + value.count(given[0]) * len(given[1]))
    if name in ("partition", "rpartition", "split", "rsplit") and given and given[0] == "":
        raise Wrong("F57", f"{name} by an empty text")
    try:
        return getattr(value, name)(*given)
    except TypeError:
        raise Wrong("F40", f"{name} of a string takes no {' and '.join(type_of(it) for it in given)}") from None
    except ValueError:
        raise Wrong("F57", f"{shown(value)} has no {shown(given[0])}") from None


def fits(count):
    """Ends the evaluation where a text would be too long."""
    if count > LONGEST:
        raise Wrong("F54", f"a string of some {count:,} bytes, and {LONGEST:,} are allowed")


def formatted(value, given, named):
    """`format`, by fields `{}`, `{0}` and `{name}`."""
    count, seen, size = 0, set(), len(value)

    def field(found):
        nonlocal size
        text = filled(found[0])
        size += len(text)
        fits(size)
        return text

    def filled(what):
        nonlocal count
        if what in ("{{", "}}"):
            return what[0]
        name = what[1:-1] if what[:1] == "{" and what[-1:] == "}" else None
        if name is None:
            raise Wrong("F59", f"a lone '{what}' in the format {shown(value)}: write '{what}{what}' for the sign itself")
        if name == "" or name.isdigit():
            seen.add(name == "")
            at, count = (count, count + 1) if name == "" else (int(name), count)
            if len(seen) > 1:
                raise Wrong("F59", f"fields with and without numbers in the format {shown(value)}")
            if at >= len(given):
                raise Wrong("F59", f"no value for the field '{what}' of {shown(value)}: {len(given)} are given")
            return text_of(given[at])
        if name not in named:
            raise Wrong("F59", f"no value for the field '{what}' of {shown(value)}{did_you_mean(name, named)}")
        return text_of(named[name])

    return re.sub(r"\{\{|\}\}|\{[^{}]*\}|[{}]", field, value)


def of_list(value, name, given):
    """Calls a method of a list."""
    if name == "pop":
        if given and type(given[0]) is not int:
            raise Wrong("F40", f"pop wants an int, and gets a {type_of(given[0])}")
        at = given[0] if given else -1
        if not -len(value) <= at < len(value):
            raise Wrong("F43", "pop of an empty list" if not value else f"pop of index {at} of a list of {len(value)} elements")
    if name == "extend":
        given = [iterable(given[0])]
    spend(len(value) // 16 + 1)
    if name in ("index", "remove"):
        at = next((at for at, part in enumerate(value) if same(part, given[0])), None)
        if at is None:
            raise Wrong("F57", f"the list has no {shown(given[0])}")
        return at if name == "index" else value.__delitem__(at)
    try:
        return getattr(value, name)(*given)
    except TypeError:
        raise Wrong("F40", f"{name} of a list takes no {' and '.join(type_of(it) for it in given)}") from None


def of_dict(value, name, given, named):
    """Calls a method of a dict."""
    if name in ("get", "pop", "setdefault"):
        at = as_key(key(given[0]))
        if name == "pop" and len(given) == 1 and at not in value:
            raise Wrong("F44", f"the dict has no key {shown(given[0])}")
        return getattr(value, name)(at, *given[1:])
    if name == "update":
        for part in given:
            value.update(part if isinstance(part, dict) else dict(iterable(part)))
        return value.update(named)
    if name == "popitem":
        if not value:
            raise Wrong("F44", "popitem of an empty dict")
        first = next(iter(value))
        return first, value.pop(first)
    if name == "items":
        return [(plain(at), part) for at, part in value.items()]
    return [plain(at) for at in value] if name == "keys" else list(value.values()) if name == "values" else value.clear()


def to_int(value, base=None):
    """The function `int`."""
    if isinstance(value, bool | int) and base is None:
        return int(value)
    if not isinstance(value, str):
        raise Wrong("F40", f"int takes a string, an int or a bool, and gets a {type_of(value)}")
    try:
        return checked(int(value, 10 if base is None else base))
    except ValueError:
        raise Wrong("F57", f"int of {shown(value)}, which is no number") from None


def ordered(values, what):
    """The values, where they can be put in order."""
    found = iterable(values)
    kinds = {type(it) for it in found}
    if not (kinds <= {int} or kinds <= {str}):
        raise Wrong("F40", f"{what} compares ints or strings alone, and gets {' and '.join(sorted(type_of(it) for it in {type(v): v for v in found}.values()))}")
    return found


def greatest(what, pick):
    """The function `max` or `min`, by its name and how it picks one."""
    def call(*given):
        found = ordered(given[0] if len(given) == 1 else list(given), what)
        if not found:
            raise Wrong("F57", f"{what} of nothing")
        return pick(found)
    return call


def a_range(*given):
    """The function `range`."""
    for it in given:
        if type(it) is not int:
            raise Wrong("F40", f"range wants ints, and gets a {type_of(it)}: {shown(it)}")
    if len(given) == 3 and given[2] == 0:
        raise Wrong("F57", "range with a step of 0")
    return range(*given)


def length(value):
    """The function `len`."""
    if not isinstance(value, str | list | tuple | dict | range):
        raise Wrong("F40", f"len of a {type_of(value)}: {shown(value)}")
    return len(value)


def fail(*given, **named):
    """The function `fail`."""
    raise Wrong("F56", '"' + named.get("sep", " ").join(text_of(it) for it in given) + '"')


def a_dict(*given, **named):
    """The function `dict`."""
    found = {}
    of_dict(found, "update", given, named)
    return found


def to_list(value):
    """The function `list`."""
    if isinstance(value, range) and len(value) > LONGEST:
        raise Wrong("F54", f"a list of {len(value):,} elements, and {LONGEST:,} are allowed")
    return iterable(value)


def select(*_):
    """The function `select`."""
    raise Wrong("F60", "select has no value here: bq loads packages without a configuration")


# each with the least and the greatest number of arguments
FUNCTIONS = {
    "all": (lambda x: all(iterable(x)), 1, 1), "any": (lambda x: any(iterable(x)), 1, 1), "bool": (lambda x=False: bool(x), 0, 1),
    "dict": (a_dict, 0, 1), "enumerate": (lambda x, start=0: list(enumerate(iterable(x), start)), 1, 2), "fail": (fail, 0, 999),
    "int": (to_int, 1, 2), "len": (length, 1, 1), "list": (lambda x=(): to_list(x), 0, 1), "max": (greatest("max", max), 1, 999),
    "min": (greatest("min", min), 1, 999), "print": (lambda *_, sep=" ": None, 0, 999), "range": (a_range, 1, 3), "repr": (lambda x: text_of(x, True), 1, 1),
    "reversed": (lambda x: list(reversed(iterable(x))), 1, 1), "select": (select, 0, 999),
    "sorted": (lambda x, reverse=False: sorted(ordered(x, "sorted"), reverse=reverse), 1, 1), "str": (text_of, 1, 1),
    "tuple": (lambda x=(): tuple(iterable(x)), 0, 1), "type": (type_of, 1, 1), "zip": (lambda *x: list(zip(*map(iterable, x))), 0, 999),
}
NAMED = {"dict": None, "fail": {"sep"}, "print": {"sep"}, "enumerate": {"start"}, "int": {"base"}, "sorted": {"reverse"}}


def builtin(name):
    """A built-in function by its name."""
    call, least, most = FUNCTIONS[name]

    def checked_call(given, named):
        known = NAMED.get(name, set())
        odd = [it for it in named if known is not None and it not in known]
        if odd:
            raise Wrong("F52", f"{name} has no parameter '{odd[0]}'")
        arguments(name, len(given), least, most)
        try:
            return checked(call(*given, **named))
        except TypeError as error:
            raise Unknown(str(error)) from None
    return Builtin(name, checked_call)


UNIVERSE = {name: builtin(name) for name in FUNCTIONS}
