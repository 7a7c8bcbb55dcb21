"""The schema of an overlay: the rules that files call, each attribute with its type, and what the functions of `given` have to know of them."""
import difflib
from collections import Counter, defaultdict

from bzlq.overlay import test_rules
from bzlq.overlay.arguments import ATTRIBUTES
from bzlq.overlay.definitions import NO_ATTRIBUTES, rule_of
from bzlq.overlay.guesses import BASE, COMMON, DICTS, FAMILIES, attributes_of, type_of
from bzlq.overlay.reading import IDENTIFIER
from bzlq.overlay.rule_sets import BAZEL, CLOSED, DICTS_OF, ENDINGS, LATER, MANDATORY, OF_BAZEL, OF_RULES, OF_TESTS_ALONE, TESTS, TEST_TYPES, TYPES

# how near a name is to one that it may have been meant for: `sources` to `srcs` is
NEAR = 0.72
STANDARD = ("alias", "filegroup", "genrule", "test_suite")
# of how many attributes of a rule it is looked whether they are misspelt: no rule has so many
MOST_ATTRIBUTES = 1000


class Schema:
    """The rules, each attribute with its type."""

    def __init__(self):
        self.given = {rule: defaultdict(Counter) for rule in STANDARD}
        self.said = defaultdict(dict)  # the types that calls of `rule` say
        self.own = {}  # the attributes of rules of the workspace's own, where texts show all of them; None where they don't
        self.tests = set(TESTS)
        self.guesses = []
        self.dicts = []
        self.types = {}  # rule -> attribute -> type

    def add(self, rule, given):
        """Adds what calls give a rule."""
        for keyword, kinds in given.items():
            self.given.setdefault(rule, defaultdict(Counter))[keyword].update(kinds)
        self.given.setdefault(rule, defaultdict(Counter))

    def find_types(self):
        """Finds the type of each attribute of each rule."""
        everywhere = defaultdict(Counter)
        for given in self.given.values():
            for keyword, kinds in given.items():
                everywhere[keyword].update(kinds)
        for rule, given in sorted(self.given.items()):
            self.types[rule] = dict(ATTRIBUTES)
            names = attributes_of(rule, {**given, **self.said[rule], **(TEST_TYPES if rule in self.tests else {})})
            for name in names:
                if IDENTIFIER.fullmatch(name) and name not in NO_ATTRIBUTES and not (len(names) <= MOST_ATTRIBUTES and self.is_misspelt(rule, name)):
                    self.types[rule].setdefault(name, self.type_of(rule, name, everywhere))

    def type_of(self, rule, name, everywhere):
        """The type of an attribute of a rule."""
        given = self.given[rule]
        kind, source = type_of(name, given.get(name, Counter()), everywhere, rule)
        said = self.said[rule].get(name) or rule in self.tests and TEST_TYPES.get(name) or rule in BAZEL and TYPES.get(rule, {}).get(name)
        if said:
            kind, source = said, "name"
        if name in given and source != "name":
            self.guesses.append((rule, name, kind, source))
        if given.get(name, Counter())["dict"]:
            self.dicts.append((rule, name))
        return kind

    def is_misspelt(self, rule, name):
        """Whether a rule that its documents tell of, or its own definition, lacks this attribute: one that is closed by them, or that has one nearly of this
        name."""
        if self.own.get(rule) is not None:
            return name not in self.own[rule] and name not in OF_RULES
        if rule not in TYPES or name in self.said[rule]:
            return False
        known = {*TYPES[rule], *OF_BAZEL.get(rule, ()), *COMMON, *DICTS, *LATER}
        if rule not in OF_BAZEL:
            known |= {*BASE, *TEST_TYPES, *(it for family, names in FAMILIES.items() if rule.startswith(family) for it in names.split())}
        return name not in known and (rule in CLOSED or rule in OF_BAZEL and name in OF_TESTS_ALONE or bool(difflib.get_close_matches(name, known, 1, NEAR)))

    def define(self, rule, names):
        """Notes the attributes that a definition of a rule declares, if they are all there is; definitions of one name share them."""
        before = self.own.get(rule, set())
        self.own[rule] = None if names is None or before is None else before | names

    def text(self):
        """The text of the schema."""
        lines = ["# Written by bzlq stubs: the types are guessed."]
        for rule, types in self.types.items():
            lines += ["", f"rule {rule}"]
            lines += [f"attr {name} {kind}{' mandatory' if name in MANDATORY.get(rule, ()) else ''}" for name, kind in sorted(types.items())]
        return "\n".join(lines) + "\n"

    def tables(self):
        """What the functions of `given` know of the rules."""
        closed = {rule for rule in self.types if rule in OF_BAZEL or self.said[rule]}
        guessed = defaultdict(list)
        for rule, name, kind, _ in self.guesses:
            if rule not in closed and rule not in TYPES and kind in ("string", "string_list"):
                guessed[rule].append(name)
        return {
            "_LABELS": {rule: [name for name, kind in types.items() if kind == "label"] for rule, types in self.types.items()},
            "_DICTS": {rule: sorted({*DICTS, *DICTS_OF.get(rule, ()), *(name for name, kind in self.said[rule].items() if not kind)}) for rule in sorted(closed)},
            "_GUESSED": dict(guessed),
            "_TESTS": dict.fromkeys(sorted(self.tests & {*self.types})),
        }


def declared_beside(repository, symbol):
    """The rules of which a macro of a repository declares targets, beside the one of its own name."""
    if repository == test_rules.REPOSITORY:
        return test_rules.DECLARED.get(symbol, ())
    return ENDINGS.get(symbol, {}).values() if repository else ()


def schema_of(facts):
    """The schema of a workspace."""
    schema = Schema()
    for callee, given in list(facts.given.items()):
        if callee[0] == "rule" and callee[1] in BAZEL:
            schema.add(callee[1], given)
    for place, symbols in facts.stubs.items():
        for symbol, stub in symbols.items():
            is_forwarded = place[0] is None or not symbol.startswith("_") and not facts.workspace.is_own(place[0])
            if stub.makes_targets and is_forwarded:
                schema.add(rule_of(symbol), facts.given.get(("stub", place, symbol), {}))
                for rule in declared_beside(place[0], symbol):
                    schema.add(rule, {})
                own = place[0] is None and symbol not in facts.workspace.files[place[1]].macros
                schema.define(rule_of(symbol), facts.rule_attributes.names_of(place[1], symbol) if own else None)
                if place[0] is None:
                    file = facts.workspace.files[place[1]]
                    schema.said[rule_of(symbol)].update(facts.rule_attributes.types(file.path, symbol))
                    if symbol in file.tests:
                        schema.tests.add(rule_of(symbol))
    schema.find_types()
    return schema
