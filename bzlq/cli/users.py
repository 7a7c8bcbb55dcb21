"""Lists the calls of a macro, or the users of a target: bzlq users [--dir DIR | --bundle FILE] [--direct] MACRO | LABEL

    $ bzlq users library
    app/BUILD:2: library: //app:app
    app/BUILD:2: library: //app:app_tests
    log/BUILD:2: library, by service: //log:log
    $ bzlq users //log
    app/BUILD:2: //app:app -> //log:log (deps)

MACRO is its name, or FILE.bzl%NAME for that of one file, or the name of a rule. The list has the statements of BUILD files that call it,
directly or through other macros (which are named), with each target that they declare. With --direct only those that call it themselves. For
a label, a word with a `/` or a `:`, it has the targets that depend on it directly, with the place and the attribute.

Status: 0; 3 if files have faults; 2 if nothing can be answered; 4, 5 as for bq.
"""
from bzlq.cli.request import parser_of, run
from bzlq.facts.graph import edge, users_of
from bzlq.hints.suggestions import did_you_mean
from bzlq.overlay.arguments import LABEL as GIVEN, PREFIX
from bzlq.overlay.reading import read
from bzlq.workspace.files import Refused


class Calls:
    """What the names of all modules stand for. A function is (label of its file, name), a rule ("", name)."""

    def __init__(self, modules, sources):
        self.modules = modules
        self.files = {label: read(it.file, sources.text(it.file).encode("latin-1")) for label, it in modules.items()}
        self.loaded = {label: {name: (load.label, symbol) for load in it.loads for name, symbol in load.symbols.items()}
                       for label, it in modules.items()}

    def origin(self, label, name):
        """What a name stands for in a module."""
        seen = set()
        while (label, name) not in seen and label in self.files:
            seen.add((label, name))
            if label == GIVEN and name.startswith(PREFIX):
                return "", name.removeprefix(PREFIX)
            file = self.files[label]
            if name in self.loaded[label]:
                label, name = self.loaded[label][name]
            elif name in file.aliases:
                name = file.aliases[name]
            else:
                return (label, name) if name in file.globals else ("", name)
        return label, name

    def of(self, label):
        """The calls of a module, each with what it calls."""
        return [(it, ("", it.name) if it.is_native else self.origin(label, it.name)) for it in self.files[label].calls]

    def leading_to(self, wanted):
        """The functions that call one of these, directly or not, each with the one that it calls."""
        found = dict.fromkeys(wanted)
        several = [((label, it.inside), callee) for label in self.files for it, callee in self.of(label) if it.inside]
        count = -1
        while count != len(found):
            count = len(found)
            for function, callee in several:
                if callee in found:
                    found.setdefault(function, callee)
        return found


def wanted(asked, calls):
    """The functions that the word names."""
    path, percent, name = asked.words.macro.rpartition("%")
    known = {callee for label in calls.files for _, callee in calls.of(label)}
    known |= {(label, it) for label, file in calls.files.items() for it in file.defs}
    label = asked.label(path) if percent else ""
    found = [it for it in known if it[1] == name and (not percent or it[0] == label)]
    if not found:
        where = f"{label} has no function" if percent else "no file has a function"
        raise Refused(f"{where} '{name}'{did_you_mean(name, [it for at, it in known if not percent or at == label])}")
    return [it for it in found if it[0]] or found


def users_of_target(asked, targets):
    """The targets that depend on one, each with the place and the attribute."""
    label = asked.target(asked.words.macro, targets).label
    return [edge(targets[it], label, asked.path) for it in users_of(targets)[label]]


def users(asked):
    """The lines of the calls of a macro, or of the users of a target."""
    facts = asked.facts()
    word = asked.words.macro
    if "%" not in word and ("/" in word or ":" in word):
        yield from users_of_target(asked, facts.targets)
        return
    calls = Calls(facts.modules, asked.sources())
    found = calls.leading_to(wanted(asked, calls))
    declared = {}
    for target in facts.targets.values():
        declared.setdefault((target.file, target.line), []).append(target.label)
    for label, module in facts.modules.items():
        file = calls.files[label]
        by = {next(stands.first for stands in file.statements if stands.first <= it.line <= stands.last): callee
              for it, callee in reversed(calls.of(label)) if file.is_build and callee in found}
        for line, callee in sorted(by.items()):
            name, way = callee[1], []
            while found[callee] is not None:
                way, callee = [*way, callee[1]], found[callee]
            if not way or not asked.words.direct:
                what = f"{callee[1]}, by {', '.join(way)}" if way else name
                for label in declared.get((module.file, line), ["no target"]):
                    yield f"{asked.path(module.file)}:{line}: {what}: {label}"


def main():
    """Reads the words of a call, and runs it."""
    parser = parser_of(__doc__)
    parser.add_argument("--direct", action="store_true", help="only calls of the macro itself")
    parser.add_argument("macro", metavar="MACRO|LABEL")
    return run(users, parser.parse_args())
