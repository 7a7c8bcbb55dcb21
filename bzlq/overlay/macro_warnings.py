"""Which calls of BUILD files declare nothing over the overlay: their macro isn't there, or could not be read, and nothing tells that it makes targets;
and which loops and conditions declare targets by a value that isn't there.

Takes the facts of a workspace; gives a `Silence` for each such function, an `Undecided` for each such value, and the lines that tell them.
"""
import bisect
import os
from dataclasses import dataclass, field

from bzlq.overlay.lost_values import undecided
from bzlq.overlay.reading import BUILD_FUNCTIONS, BUILT_INS

# what a BUILD file calls and what declares nothing that a query could name
DECLARES_NOTHING = (BUILD_FUNCTIONS | BUILT_INS | {"load", "register_toolchains", "register_execution_platforms"}) - {"package_group"}
SHOWN = 3


@dataclass
class Silence:
    """A function whose calls declare nothing."""

    symbol: str
    at: str  # where it is defined, or loaded from
    why: str
    calls: list = field(default_factory=list)  # PATH:LINE
    inside: list = field(default_factory=list)  # those of them in a macro
    empty: list = field(default_factory=list)  # the packages in which nothing else is called

    def told(self, is_all):
        """The line that tells it."""
        calls = "1 call" if len(self.calls) == 1 else f"{len(self.calls)} calls"
        where = self.empty or self.calls
        shown = ", ".join(where if is_all else where[:SHOWN]) + (", .." if len(where) > SHOWN and not is_all else "")
        packages = "1 package is" if len(self.empty) == 1 else f"{len(self.empty)} packages are"
        what = f"; {packages} empty" if self.empty else " (in a macro)" if len(self.inside) == len(self.calls) else ""
        return f"{calls} of {self.symbol} ({self.at}: {self.why}) may declare targets and declare{'s' if len(self.calls) == 1 else ''} none{what}: {shown}"


def silences(facts):
    """The functions whose calls as statements declare nothing, those with most calls first; then what decides which targets are declared, and isn't known."""
    found, macros = {}, called(facts)
    for path in sorted(facts.reached):
        file = facts.workspace.files[path]
        said = list(statements(facts, file))
        quiet = [(key, line, inside) for key, line, inside in said if key and (not inside or (path, inside) in macros)]
        for key, line, inside in quiet:
            silence = found.setdefault(key, Silence(key[1], *place_of(facts, *key)))
            silence.calls.append(f"{path}:{line}")
            if inside:
                silence.inside.append(f"{path}:{line}")
        if file.is_build and quiet and len(quiet) == len(said):
            for key in {key for key, *_ in quiet}:
                found[key].empty.append("//" + os.path.dirname(path))
    return sorted(found.values(), key=lambda it: (-len(it.empty), -len(it.calls), it.symbol)) + undecided(facts, macros)


def called(facts):
    """The macros that BUILD files call, directly or not: path and name."""
    found = set()
    pending = [(path, call) for path in facts.reached if facts.workspace.files[path].is_build for call in facts.workspace.files[path].calls]
    while pending:
        path, call = pending.pop()
        file = facts.workspace.files[path]
        origin = facts.origin(file, call.name) if call.name in file.globals and not call.is_native else None
        if origin and origin[0] == "def" and origin[1:] not in found:
            found.add(origin[1:])
            pending += [(origin[1], it) for it in facts.calls_in(*origin[1:])]
    return found


def statements(facts, file):
    """The calls of a file that stand as statements and may declare targets: what is called where it declares nothing, line, function around."""
    for call in file.calls:
        is_known = call.is_native or call.name not in file.globals
        if call.is_statement and not facts.is_replaced(file, call.line) and not (is_known and call.name in DECLARES_NOTHING):
            found = facts.origin(file, call.name) if not is_known else None
            yield quiet_key(facts, found), call.line, call.inside
    for name, member, keywords, line in file.member_calls:
        found = facts.origin(file, name) if file.is_build and name in file.globals else None
        if found and found[0] == "stub" and "name" not in keywords:
            yield (found[1], f"{found[2]}.{member}"), line, ""
        elif file.is_build:
            yield None, line, ""


def quiet_key(facts, found):
    """The place and name of what a call names, where that makes no target."""
    if not found or found[0] != "stub" or facts.stub(*found[1:]).makes_targets:
        return None
    return found[1:]


def place_of(facts, place, symbol):
    """Where a function is, and why its calls declare nothing."""
    repository, package, name = place
    if repository is not None:
        label = (f"@{repository}" if repository else "") + f"//{package}:{name}"
        return label, "it isn't there, and no call gives it a name"
    statement = facts.replaced.of_name(package, symbol.partition(".")[0])
    if statement:
        faults = sorted(facts.workspace.files[package].faults)
        first = bisect.bisect_left(faults, (statement.first, ""))
        what = f"{faults[first][1]} in line {faults[first][0]}" if first < len(faults) and faults[first][0] <= statement.last else ""
        return f"{package}:{statement.first}", f"bq leaves out {what}" if what else "it uses what bq leaves out"
    return package, "it uses what bq leaves out"


def warnings(found, is_all=False):
    """A line for each of these."""
    yield from (it.told(is_all) for it in found)
