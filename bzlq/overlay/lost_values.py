"""What comes of values that aren't there, or that bq leaves out: which other names have them in their values, which packages pass them on to macros, and
which targets are declared only if such a value says so. Takes the facts of a workspace.

A value that isn't there is empty in an overlay, so a loop over it declares nothing, and an edge by it is missing. A call tells what it names itself
(copies.py); what it names may have it from another name, from a function, or from a macro's caller.
"""
import bisect
from collections import defaultdict
from dataclasses import dataclass, field

from bzlq.overlay.replacements import EXISTING

SHOWN = 3


class Uses:
    """The names whose values a file uses, by their lines: what it names as a value, and the functions that it calls for one."""

    def __init__(self, file):
        used = {(line, name) for name, _, line in file.uses} | {(it.line, it.name) for it in file.calls if not it.is_statement and not it.is_native}
        self.used = sorted([it for it in used if it[1] in file.globals] + [(line, EXISTING) for line in file.existing])

    def within(self, first, last):
        """The names in these lines."""
        at = bisect.bisect_left(self.used, (first, ""))
        while at < len(self.used) and self.used[at][0] <= last:
            yield self.used[at][1]
            at += 1


def spread(found, after):
    """Has what is found of some also be found of all that come after them, in as many steps as there are ways."""
    pending = list(found)
    while pending:
        at = pending.pop()
        for it in after.get(at, ()):
            if it not in found:
                found[it] = found[at]
                pending.append(it)
    return found


def lost_names(facts, paths, known):
    """The names that these files bind to values, or to functions, in which something isn't there: what is said of it, by (path, name). `known` has
    those of other files."""
    found, after = {}, defaultdict(list)
    for path in paths:
        file = facts.workspace.files[path]
        # (statements may share their lines, and have the same names then)
        together = defaultdict(list)
        for statement in file.statements:
            if statement.names and not facts.replaced.has(path, statement):
                together[path, statement.first, statement.last] += [(path, it) for it in statement.names]
        uses = Uses(file)
        for lines in together:
            for name in uses.within(*lines[1:]):
                told, bound = facts.lost_value(file, name), facts.names.binding(file, name)
                at = (bound[0].path, bound[1]) if bound else None
                if told := told or known.get(at, ""):
                    found.setdefault(lines, told)
                elif at:
                    after[at].append(lines)
        after.update(together)
    return {at: told for at, told in spread(found, after).items() if len(at) == 2}


def callers(facts):
    """Of each macro of the tree the functions that call it; each is a path and a name."""
    found = defaultdict(set)
    for path in facts.reached:
        file = facts.workspace.files[path]
        for call in file.calls if not file.is_build else ():
            if call.inside and is_declaring(call) and (called := macro_of(facts, file, call)):
                found[called].add((path, call.inside))
    return found


def is_declaring(call):
    """Whether a call may be there for the targets that it declares."""
    return call.is_statement or "name" in call.keywords


def macro_of(facts, file, call):
    """The path and the name of the function of the tree that is called; nothing for another one."""
    found = facts.origin(file, call.name) if not call.is_native and call.name in file.globals else None
    return found[1:] if found and found[0] == "def" else None


def hidden_macros(facts):
    """The functions of symbolic macros of which texts don't show all defaults, each a path and a name, with what is said of it."""
    return {(path, function): f"value: defaults of {name} of {path}" for path in sorted(facts.reached)
            for name, (function, _) in facts.workspace.files[path].macros.items() if not facts.rule_attributes.of_macro(path, name)[1]}


def passed_on(facts):
    """The packages whose macros are given a value that isn't there, with what is said of it: by a BUILD file, by a macro that calls another one, or by the
    definition of a symbolic macro."""
    after = callers(facts)
    giving = {**hidden_macros(facts), **{it: facts.lost_names[it] for its in after.values() for it in its if it in facts.lost_names}}
    spread(giving, after)
    found = {}
    for path in sorted(facts.reached):
        file = facts.workspace.files[path]
        macros = [(call.line, called) for call in file.calls if is_declaring(call) and (called := macro_of(facts, file, call))] if file.is_build else ()
        told = {giving[called] for _, called in macros if called in giving}
        if macros:
            uses, lines = Uses(file), {line for line, _ in macros}
            for first, last in {(it.first, it.last) for it in file.statements} if uses.used else ():
                if not lines.isdisjoint(range(first, last + 1)):
                    told |= {lost for name in uses.within(first, last) if (lost := facts.value_lost(file, name))}
        if told:
            found[facts.workspace.package_of(path)] = sorted(told)
    return found


def given_lost(facts):
    """Of each macro the parameters that are given a value which isn't there, as it is, each with what is said of that: by a BUILD file, by a macro, or by
    one that was given it itself."""
    found, pending = defaultdict(dict), []

    def look(file, call, told_of):
        if not (call.passed or call.unnamed) or not (called := macro_of(facts, file, call)):
            return
        parameters = facts.workspace.files[called[0]].defs[called[1]].parameters
        for parameter, name in [*zip(parameters, call.unnamed), *call.passed.items()]:
            told = told_of(name) if name and parameter in parameters and parameter not in found[called] else ""
            if told:
                found[called][parameter] = told
                pending.append(called)

    for path in sorted(facts.reached):
        file = facts.workspace.files[path]
        for call in file.calls:
            own = file.defs[call.inside].parameters if call.inside in file.defs else ()
            look(file, call, lambda name, file=file, own=own: facts.value_lost(file, name) if name in file.globals and name not in own else "")
    while pending:
        macro = pending.pop()
        for call in facts.calls_in(*macro):
            look(facts.workspace.files[macro[0]], call, lambda name, macro=macro: found[macro].get(name, ""))
    return found


@dataclass
class Undecided:
    """A value that isn't there, and the places where it decides which targets are declared."""

    value: str
    places: dict = field(default_factory=dict)  # PATH:LINE (keys, in order)

    def told(self, is_all):
        """The line that tells it."""
        where = ", ".join([*self.places][:len(self.places) if is_all else SHOWN]) + (", .." if len(self.places) > SHOWN and not is_all else "")
        count = "1 loop or condition declares" if len(self.places) == 1 else f"{len(self.places)} loops and conditions declare"
        return f"{count} targets by {self.value}, whose value isn't known: {where}"


def undecided(facts, macros):
    """The loops and conditions that declare targets by a value that isn't there, by that value. `macros` are the functions that BUILD files call."""
    after, makers = callers(facts), {}
    for path in facts.reached:
        file = facts.workspace.files[path]
        makers.update({(path, call.inside): True for call in file.calls if call.inside and declares(facts, file, call, ())})
    spread(makers, after)
    given, found = given_lost(facts), {}
    for path in sorted(facts.reached):
        file = facts.workspace.files[path]
        for names, inside, first, last, line in file.decisions:
            if inside and (path, inside) not in macros or facts.is_replaced(file, line):
                continue
            of = given.get((path, inside), {})
            told = next((lost for name in names if (lost := of.get(name[1:-1], "") if name[0] == "(" else facts.value_lost(file, name))), "")
            if told and any(declares(facts, file, call, makers) for call in file.calls[first:last]):
                value = told.removeprefix("value: ")
                found.setdefault(value, Undecided(value)).places[f"{path}:{line}"] = None
    return [found[it] for it in sorted(found)]


def declares(facts, file, call, makers):
    """Whether a call declares a target: of a rule, of a macro that isn't there, or of one of these macros."""
    if not is_declaring(call):
        return False
    called = facts.callee(file, call.name, call.is_native)
    if not called or called[0] == "value":
        return False
    return called[1:] in makers if called[0] == "def" else called[0] == "rule" or facts.stub(*called[1:]).makes_targets
