"""What stands in a .bzl file for a symbol that isn't there: a macro that forwards to a rule of the schema, a function, or a value."""
from collections import Counter

from bzlq.overlay import skylib, test_rules
from bzlq.overlay.guesses import type_of
from bzlq.overlay.reading import BUILD_FUNCTIONS, BUILT_INS
from bzlq.overlay.rule_sets import ENDINGS, OTHER_KINDS, SEVERAL, SIZES, TYPES
from bzlq.overlay.starlark_text import quoted, starlark

# macros of which it is known what they declare, by their repositories
KNOWN = {it.REPOSITORY: it.RULES for it in (skylib, test_rules)}
RESERVED = set("""and break continue def elif else for if in lambda load not or pass return as assert async await class del except finally from
    global import is nonlocal raise try while with yield native""".split()) | BUILT_INS | BUILD_FUNCTIONS
# what no attribute may be called
NO_ATTRIBUTES = RESERVED - BUILD_FUNCTIONS - BUILT_INS


def rule_of(symbol):
    """The rule that a symbol is forwarded to. (`selects__config_setting_group` stands for a member.)"""
    name = symbol.partition("__")[2] if "__" in symbol.strip("_") else symbol
    return f"{name}_rule" if name in RESERVED else name


def shape(place):
    """What a place takes: a list, a text, or something else."""
    if place in ("list", "strings", "labels"):
        return "list"
    if place in ("string", "label"):
        return "text"
    kind, source = type_of(place, Counter(), {})
    return "" if source != "name" else "list" if kind.endswith("_list") else "text" if kind in ("string", "label") else ""


def value_for(stub):
    """What stands for a symbol that makes no target, by the places that it is used at."""
    if stub.members & {"get", "items", "keys", "values"} or stub.wanted["dict"]:
        return "{}"
    shapes = Counter()
    for place, count in stub.wanted.items():
        shapes[shape(place)] += count
    if shapes["text"] > shapes["list"] or "format" in stub.members:
        return '""'
    # (an attribute that is given None isn't given)
    return "None" if not shapes["list"] and any(stub.wanted) else "[]"


# what a function gives that chooses between its arguments: all parts of lists; where texts are wanted of it too, the latter of two, which is mostly
# what is taken by default
OF_LISTS = '[part for value in list(args) + list(kwargs.values()) if type(value) == "list" for part in value]'
OF_TEXTS = f'args[1] if len(args) == 2 and type(args[0]) == "string" and type(args[1]) == "string" else {OF_LISTS}'
# functions of rules_python and rules_jvm_external that give labels
LABELS_OF = {
    "requirement": '"@{repository}//" + name.lower().partition("[")[0].replace("-", "_").replace(".", "_")',
    "artifact": '"@maven//:" + "_".join(name.split(":")[:2]).replace("-", "_").replace(".", "_")',
}


def made_up(symbol, label):
    """What is made up of the targets that a macro or rule of a file declares which isn't there."""
    name = symbol.rpartition("__")[2]
    if name in SEVERAL:
        return [f"targets: {symbol} of {label}, which isn't there, may declare more"]
    return [] if name in TYPES and name not in OTHER_KINDS and name not in ENDINGS else [f"kind: {symbol} of {label}, which isn't there"]


def forwarded(symbol, lost, endings, defaults, hidden, limits):
    """The text of a macro that forwards to a rule, with these defaults of its attributes, the names of those whose defaults aren't known, and their limits, and
    declares targets of these endings, each with its rule, beside it."""
    texts = ", ".join(quoted(it) for it in lost)

    def call(rule, given, unnamed=""):
        return f'native.{rule}(**bzlq_given("{rule}", [{texts}], {given}{unnamed}))'

    more = "".join(f'; {call(rule, f"""{{"name": name + "{ending}", "data": [":" + name]}}""")}' for ending, rule in endings.items())
    size = f', "size": "{SIZES[symbol]}"' if symbol in SIZES else ""
    others = [defaults, hidden, *limits]
    while others and not others[-1]:
        others.pop()
    more_given = ", args" + "".join(f", {starlark(it)}" for it in others)
    return f"def {symbol}(name, *args, **given): " + call(rule_of(symbol), f'dict({{"name": name{size}}}, **given)', more_given) + more


def definition(repository, symbol, stub, lost=(), defaults=(), hidden=(), limits=()):
    """The text that defines a symbol, in one line but for members of skylib's. `lost` says what is made up; `defaults` are those of a rule's attributes,
    `hidden` the names of those whose defaults aren't known, and `limits` what calls have to give and what they may."""
    if symbol in skylib.MEMBERS and repository:
        return f"def {symbol}{skylib.MEMBERS[symbol]}"
    if symbol in KNOWN.get(repository, {}):
        return f"def {symbol}{KNOWN[repository][symbol]}".replace("LOST", f"[{', '.join(quoted(it) for it in lost)}]")
    if stub.makes_targets:
        return forwarded(symbol, lost, ENDINGS.get(symbol, {}) if repository else {}, dict(defaults), list(hidden), limits)
    if repository and symbol in LABELS_OF:
        return f"def {symbol}(name, *args, **kwargs): return {LABELS_OF[symbol].format(repository=repository)}"
    if not stub.is_called:
        return f"{symbol} = {value_for(stub)}"
    value = value_for(stub)
    if value == "[]":
        value = OF_TEXTS if any(count and shape(place) == "text" for place, count in stub.wanted.items()) else OF_LISTS
    if value == '""':
        # a label, so that it may stand where a label is wanted
        value = f'"@{repository}//:{symbol}"' if repository else f'":{symbol}"'
    return f"def {symbol}(*args, **kwargs): return {value}"
