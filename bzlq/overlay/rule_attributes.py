"""The attributes of the rules and symbolic macros that .bzl files make: takes what each file shows of them (attribute_parts.py), follows names through
loads, gives types and defaults, and what isn't known.
"""
from collections import defaultdict
from dataclasses import dataclass, field

from bzlq.overlay.arguments import ANY, SHOWN
from bzlq.overlay.attribute_parts import ATTRIBUTE, GLOBAL, HIDDEN, NAMED, NO_LIMITS, UNKNOWN, VALUE, default_of
from bzlq.overlay.definitions import NO_ATTRIBUTES
from bzlq.overlay.reading import IDENTIFIER

# the types of defaults that data may have: those of labels would make edges, which Bazel counts as implicit
GIVEN_TYPES = {"bool": bool, "int": int, "string": str, "string_list": list}
# what an attribute has where neither a call nor its definition says it, by its type; a dict for other types
NOTHING = {"bool": False, "int": 0, "string": "", "label": None, "output": None, "label_list": [], "string_list": [], "output_list": []}
# how many attributes all rules and dicts of a workspace may have together
MOST_ATTRIBUTES = 1_000_000


def in_full(label, package):
    """The label that a default of a file in this package is."""
    return label if label.startswith(("//", "@")) else f"//{package}:{label.removeprefix(':')}"


@dataclass
class Attributes:
    """The attributes of a rule, or of a dict of them."""

    types: dict = field(default_factory=dict)
    defaults: dict = field(default_factory=dict)
    limits: dict = field(default_factory=dict)
    is_whole: bool = True  # whether it has no other attributes

    def add(self, name, kind, default, limits):
        """Adds an attribute, or has it in the place of another of its name."""
        self.types[name], self.defaults[name], self.limits[name] = kind, default, limits

    def merge(self, other):
        """Adds the attributes of a dict, which may have the place of others if it doesn't show all."""
        if not other.is_whole:
            self.defaults = dict.fromkeys(self.defaults, HIDDEN)
        self.is_whole &= other.is_whole
        self.types |= other.types
        self.defaults |= other.defaults
        self.limits |= other.limits

    def named(self):
        """The types that the text shows, by attribute."""
        return {name: kind for name, kind in self.types.items() if kind is not None}


class RuleAttributes:
    """The attributes of all rules and symbolic macros of a workspace. (A symbolic macro calls its function with them.)"""

    def __init__(self, workspace, names):
        self.workspace, self.names, self.known, self.left = workspace, names, {}, MOST_ATTRIBUTES
        self.said = None  # once it is asked for: the types that rules of each name say, by attribute

    def types(self, path, name):
        """The types of the attributes of a rule that a file makes, as far as texts show them; none for what is no rule."""
        return self.of(path, name).named() if name in self.workspace.files[path].made else {}

    def names_of(self, path, name):
        """The names of all attributes that a rule declares; None for one that may have more, and for what is no rule."""
        found = self.of(path, name) if name in self.workspace.files[path].made else None
        return {*found.types} if found and found.is_whole else None

    def limits_of(self, path, name):
        """The attributes of a rule that each call has to give, and those that take some texts alone, with these."""
        if self.names_of(path, name) is None:
            return [], {}
        limits = {key: it for key, it in self.of(path, name).limits.items() if IDENTIFIER.fullmatch(key) and key not in NO_ATTRIBUTES}
        return [key for key, (is_mandatory, _) in limits.items() if is_mandatory], {key: list(values) for key, (_, values) in limits.items() if values}

    def of_rule(self, path, name):
        """The defaults of a rule's attributes that data may have, and what isn't known: the names of attributes with others, and, if the rule may have more
        attributes, ANY and the names of those that it shows. None of these for what is no rule. (Rules of one name that give an attribute several types
        share one in the schema.)"""
        if name not in self.workspace.files[path].made:
            return {}, []
        if self.said is None:
            self.said = defaultdict(lambda: defaultdict(set))
            for other, symbol in ((other, symbol) for other, file in self.workspace.files.items() for symbol in file.made):
                for attribute, kind in self.types(other, symbol).items():
                    self.said[symbol][attribute].add(kind)
        found, given, hidden = self.of(path, name), {}, []
        for attribute, default in found.defaults.items():
            may_be = IDENTIFIER.fullmatch(attribute) and attribute not in NO_ATTRIBUTES and len(self.said[name][attribute]) == 1
            if may_be and default[:1] == (VALUE,) and type(default[1]) is GIVEN_TYPES.get(found.types[attribute]):
                given[attribute] = default[1]
            elif default and not attribute.startswith("_"):
                hidden.append(attribute)
        return given, hidden if found.is_whole else [*hidden, ANY, *(f"{SHOWN}{it}" for it in found.defaults if it not in hidden)]

    def of_macro(self, path, name):
        """What a symbolic macro gives its function where a call gives less, and whether texts show all of that."""
        found, given, package = self.of(path, name), {}, self.workspace.package_of(path)
        for attribute, kind in found.types.items():
            default = found.defaults[attribute]
            value = default[1] if default[:1] == (VALUE,) else NOTHING.get(kind, {})
            if kind == "label" and isinstance(value, str):
                value = in_full(value, package)
            if kind == "label_list" and isinstance(value, list):
                value = [in_full(it, package) for it in value]
            given[attribute] = value
        return given, found.is_whole and HIDDEN not in found.defaults.values()

    def place(self, path, name):
        """The file that binds a global, and its name there; nothing where that isn't there."""
        found, seen = self.names.binding(self.workspace.files[path], name), set()
        while found and found[1] in found[0].aliases and (found[0].path, found[1]) not in seen:
            seen.add((found[0].path, found[1]))
            found = self.names.binding(found[0], found[0].aliases[found[1]])
        return (found[0].path, found[1]) if found else None

    def parts(self, at):
        """What the file at a place shows of it."""
        file, name = self.workspace.files[at[0]], at[1]
        if name in file.macros:
            return file.macros[name][1]
        return file.made[name] if name in file.made else file.attributes.get(name, [(UNKNOWN,)])

    def of(self, path, name):
        """The `Attributes` of a global of a file."""
        pending, begun = [self.place(path, name)], set()
        while pending:
            at = pending[-1]
            if at is None or at in self.known:
                pending.pop()
                continue
            others = () if at in begun else [self.place(at[0], it[1]) for it in self.parts(at) if it[0] == GLOBAL]
            begun.add(at)
            pending += [it for it in others if it not in begun]
            if pending[-1] is at:
                self.known[pending.pop()] = self.joined(at)
        return self.known.get(self.place(path, name), Attributes(is_whole=False))

    def joined(self, at):
        """The attributes of a place, whose names are known but for those that lead back to it."""
        found = Attributes()
        for kind, *rest in self.parts(at):
            if kind == ATTRIBUTE:
                name, of, default, limits = rest
                found.add(name, of, self.default(at[0], default), limits)
                continue
            other = self.known.get(self.place(at[0], rest[0])) if kind == GLOBAL else None
            if rest[1:]:
                found.add(rest[1], *((other.types.get(""), other.defaults.get("", HIDDEN), other.limits.get("", NO_LIMITS)) if other else (None, HIDDEN, NO_LIMITS)))
            else:
                found.merge(other or Attributes(is_whole=False))
            self.left -= len(other.types) if other else 0
            if self.left < 0:
                return Attributes(is_whole=False)
        return found

    def default(self, path, default):
        """A default, by the value of the global that it names."""
        if default[:1] != (NAMED,):
            return default
        place = self.place(path, default[1])
        return default_of(self.workspace.files[place[0]].constants.get(place[1], ())) if place else HIDDEN
