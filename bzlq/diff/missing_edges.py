"""Edges that facts lack, since an overlay leaves them out (docs/REAL_WORKSPACES.md): from a target to the conditions of a `select`, to branches
of one that aren't taken, to what a dict names, and to the defaults of the attributes of the workspace's own rules, such as their tools. Takes a side,
gives the labels that each target may depend on beside its own.

A text in a dict counts, where it is the label of a target: in the statement that declares the target, in those whose names it uses, and in
.bzl files from which it has a name, with what they load. Keys that are computed may be any condition. Of the defaults all count that are in the file
that makes the rule, and in those that it loads.
"""
import ast
import re

from bzlq.diff.text_diff import Texts, loaded_by, made_by
from bzlq.hints.labels import BadLabel, joined, split

CONDITION = re.compile(r"(config_setting|constraint_value)")
ANY = "*"


def unseen(side):
    """The labels, by those of the targets."""
    if not side.overlay:
        return {}
    texts, declared, found = Texts(side), {}, {}
    conditions = {it.label for it in side.facts.targets.values() if CONDITION.match(it.kind)}
    for target in side.facts.targets.values():
        if target.line and target.file in side.texts:
            declared.setdefault(target.file, []).append(target)
    modules = {it.file: it for it in side.facts.modules.values()}
    of_files = Files(texts, side.facts.modules)
    for path, targets in declared.items():
        by_line = of_files.by_line(path, modules[path]) if path in modules else {}
        for target in targets:
            named = {it for text in by_line.get(target.line, ()) for it in ([*conditions] if text == ANY else [label(text, target.label)])}
            if named := {it for it in named if it in side.facts.targets} - {target.label, *target.deps}:
                found[target.label] = named
    for of_label, labels in by_defaults(texts, side.facts):
        if named := {it for it in labels if it in side.facts.targets} - {of_label}:
            found[of_label] = found.get(of_label, set()) | named
    return found


def by_defaults(texts, facts):
    """The targets of rules that .bzl files make, each with the labels that are defaults of their attributes."""
    defaults, closures, known = Defaults(texts, facts.modules), loaded_by(facts.modules), {}
    of_files = {it.file: it for it in facts.modules.values()}
    for target in facts.targets.values():
        if not target.line or target.file not in closures:
            continue
        if target.file not in known:
            known[target.file] = of_kinds = {}
            for path in closures[target.file]:
                for name in defaults.rules(path):
                    of_kinds.setdefault(f"{name} rule", set()).update(defaults.of(of_files[path], name))
        if labels := known[target.file].get(target.kind):
            yield target.label, labels


class Defaults:
    """The labels that are defaults of attributes, by the files and names of rules."""

    def __init__(self, texts, modules):
        self.texts, self.modules, self.binding, self.known = texts, modules, {}, {}

    def statements(self, path, name):
        """The statements of a file that bind a name."""
        if path not in self.binding:
            self.binding[path] = {}
            for it in self.texts.statements(path) or () if path.endswith(".bzl") else ():
                for bound in () if it.is_load else made_by(it):
                    self.binding[path].setdefault(bound, []).append(it)
        return self.binding[path].get(name, ())

    def rules(self, path):
        """The names that a file gives what calls make: its rules are among them."""
        self.statements(path, "")
        return [name for name, them in self.binding[path].items() if any(isinstance(it.node, ast.Assign) and isinstance(it.node.value, ast.Call) for it in them)]

    def of(self, module, name):
        """The labels of a rule: those in what makes it, and in all that this names."""
        if (module.label, name) not in self.known:
            found, seen, pending = self.known.setdefault((module.label, name), set()), set(), [(module, name, False)]
            while pending:
                at, it, is_value = pending.pop()
                if (at.label, it, is_value) not in seen:
                    seen.add((at.label, it, is_value))
                    pending += [(self.modules[load.label], load.symbols[it], is_value) for load in at.loads if it in load.symbols and load.label in self.modules]
                    for statement in self.statements(at.file, it):
                        values = [statement.node] if is_value else defaults_in(statement.node)
                        found |= {label(text, at.label) for value in values for text in labels_in(value)}
                        pending += [(at, part.id, True) for value in values for part in ast.walk(value) if isinstance(part, ast.Name)]
                        pending += [(at, used, False) for used in statement.names]
        return self.known[module.label, name]


def defaults_in(node):
    """The defaults of attributes of labels in a statement."""
    calls = [it for it in ast.walk(node) if isinstance(it, ast.Call) and getattr(it.func, "attr", "").startswith("label")]
    return [key.value for it in calls for key in it.keywords if key.arg == "default"]


def labels_in(node):
    """The texts in an expression or statement that are labels of this workspace."""
    return {it.value for it in ast.walk(node) if isinstance(it, ast.Constant) and is_label(it.value)}


class Files:
    """The texts in dicts, by files and by statements."""

    def __init__(self, texts, modules):
        self.texts, self.modules, self.known = texts, modules, {}

    def by_line(self, path, module):
        """Those that each statement of a BUILD file may use, by its line."""
        of_names = {}
        for load in module.loads:
            if given := self.of(load.label):
                of_names |= {name: given for name in load.symbols}
        statements = self.statements(path) if of_names else self.with_dicts(path)
        for it in statements:
            if not it.is_load:
                of_names |= {name: of_names.get(name, set()) | self.used(it, of_names) for name in made_by(it)}
        return {it.first: self.used(it, of_names) for it in statements if not it.is_load}

    def used(self, statement, of_names):
        """The labels among the keys of a statement's dicts, and of the names that it has."""
        return in_dicts(statement.node).union(*(of_names[name] for name in statement.names & {*of_names}))

    def of(self, label):
        """Those of a .bzl file, and of all that it loads."""
        if label not in self.known:
            self.known[label] = set()
            if module := self.modules.get(label):
                own = [in_dicts(it.node) for it in self.with_dicts(module.file)]
                self.known[label] = set().union(*own, *(self.of(load.label) for load in module.loads))
        return self.known[label]

    def with_dicts(self, path):
        """The statements of a file, if it has a dict at all."""
        return self.statements(path) if b"{" in self.texts.side.texts.get(path, b"") else []

    def statements(self, path):
        """The statements of a file."""
        return self.texts.statements(path) or []


def in_dicts(node):
    """The texts of a statement that stand in dicts."""
    found = set()
    for it in ast.walk(node):
        match it:
            case ast.Dict(keys=keys, values=values):
                found |= {text for key in keys for text in texts_of_key(key)}
                found |= {text for value in values for text in labels_in(value)}
            case ast.DictComp():
                found.add(ANY)
    return found


def texts_of_key(key):
    """The texts in the key of a dict."""
    match key:
        case ast.Constant(value=str() as text):
            return [text]
        case ast.Tuple(elts=parts):
            return [text for part in parts for text in texts_of_key(part)]
        case ast.Call(args=[part], keywords=[]):
            return texts_of_key(part)
        case None | ast.Constant():
            return []
        case _:
            return [ANY]


def is_label(value):
    """Whether a value is the text of a label of this workspace."""
    return isinstance(value, str) and value.startswith((":", "//"))


def label(text, of):
    """The label in full, as the target's package reads it; nothing where it is none."""
    try:
        repository, package, _ = split(of)
        return joined(*split(text, repository, package))
    except BadLabel:
        return ""
