"""The facts of one or more parts of a workspace, as `bq --facts` writes them: takes the lines of a file, gives a `Section` for each run that wrote
some. What isn't whole is refused: a text that was cut off, and facts of a version without `names`."""
import json
import os
import re
from dataclasses import dataclass, field

from bzlq.workspace.files import Refused
from bzlq.workspace.parts import ELSEWHERE, MARKED, REPOSITORY

VERSION = 2
# the members of a first line that say how many lines follow, and the member by which each of those is known
COUNTS = {"targets": "target", "modules": "module", "faults": "fault"}
BUILD_FILE = re.compile(r":BUILD(?:\.bazel)?")
# what comes right before and after the attributes in a line that bq wrote, with their first and last brace
BEFORE, AFTER = b',"attributes":{', b'},"names":['
# the text of a value, as facts have it
json_of = json.JSONEncoder(separators=(",", ":")).encode


@dataclass
class Section:
    """What one run said; the attributes of a target are a text. `mark` is its part, of how many, and their split; `elsewhere` are the labels of the BUILD files of other parts."""

    place: str
    targets: list = field(default_factory=list)
    modules: list = field(default_factory=list)
    faults: list = field(default_factory=list)
    mark: tuple = ()
    elsewhere: set = field(default_factory=set)

    def sort_out(self):
        """Takes out what was said of parts."""
        own = f"@{REPOSITORY}//:BUILD"
        for it in self.faults:
            if it["label"] == own and (found := MARKED.fullmatch(it["detail"])):
                self.mark = int(found[1]), int(found[2]), found[3]
            elif it["detail"] == f'"{ELSEWHERE}"':
                self.elsewhere.add(it["label"])
        without = self.elsewhere | {own}
        self.modules = [it for it in self.modules if it["module"] not in without]
        self.faults = [it for it in self.faults if it["label"] not in without]
        self.check_whole()
        return self

    def check_whole(self):
        """Refuses the facts of a query: each package whose file has no fault of its own has a target for that file."""
        there = {it["target"] for it in self.targets} | {it["label"] for it in self.faults if it["fault"] != "F79"}
        if missing := next((it["module"] for it in self.modules if is_build(it["module"]) and it["module"] not in there), None):
            raise Refused(f"{self.place} lacks the target {missing}: facts of a query can't be joined, only those of a whole part")


def sections(lines, place):
    """The sections of these lines, which are bytes; `place` names them."""
    lines, found = enumerate(lines, 1), None
    for number, line in lines:
        told = read(line, f"{place}:{number}")
        if "package" in told and found:
            continue  # (bzlq writes what calls of package say after the facts)
        found = Section(place)
        for name, count in counts(told, place).items():
            wanted, many = COUNTS[name], getattr(found, name)
            while len(many) < count:
                number, line = next(lines, (0, b""))
                told = read(line, f"{place}:{number}") if line else {}
                if wanted not in told:
                    raise Refused(f"{place} was cut off: it has {len(many):,} of {count:,} {name}")
                if "attributes" in told:
                    told["attributes"] = attributes_text(line, told)
                many.append(told)
        if odd := next((it for it in found.targets if "line" in it and "names" not in it), None):
            raise Refused(f"{place}: {odd['target']} has no `names`, which bq writes into facts from 1.6.0 on: run that version of bq")
        yield found.sort_out()
    if not found:
        raise Refused(f"{place} is empty: the run that should have written it has failed")


def counts(first, place):
    """How many lines of each kind a first line says."""
    if "facts" not in first:
        raise Refused(f"{place} begins with no line {{\"facts\":{VERSION},..}}, which bq writes from 1.6.0 on, as it does the `names` of targets: run that version of bq")
    if first["facts"] != VERSION or any(not isinstance(first.get(it), int) for it in COUNTS):
        raise Refused(f"{place} has facts of version {first['facts']}, and {VERSION} is read here")
    return {it: first[it] for it in COUNTS}


def attributes_text(line, told):
    """The text of a target's attributes: what is in its line, where that is as bq writes it, since to write it anew takes as long as to read it."""
    start, end = line.find(BEFORE), line.rfind(AFTER)
    # (a quote in a text has a backslash before it, so neither is found in one)
    is_plain = 0 < start < end and list(told)[4:6] == ["attributes", "names"]
    return line[start + len(BEFORE) - 1:end + 1].decode() if is_plain else json_of(told["attributes"])


def read(line, place):
    """The object of a line."""
    try:
        told = json.loads(line.decode())
    except ValueError:
        told = None
    if not isinstance(told, dict):
        raise Refused(f"{place} is no line of facts")
    return told


def sections_of(path):
    """The sections of a file; `-` is standard input."""
    with open(0 if path == "-" else path, "rb", closefd=path != "-") as file:
        yield from sections(file, "standard input" if path == "-" else os.fspath(path))


class Marks:
    """Which parts were given, and which packages: what says whether they are the whole."""

    def __init__(self):
        self.parts, self.given, self.elsewhere, self.here = {}, {}, set(), set()

    def add(self, section):
        """Adds a part; parts of two ways of cutting aren't put together."""
        self.elsewhere |= section.elsewhere
        self.here |= {it["module"] for it in section.modules if is_build(it["module"])}
        if not section.mark:
            return
        part, parts, split = section.mark
        if any(it != split for it in self.parts):
            raise Refused(f"{section.place} is a part of another split than {next(iter(self.given.values()))}: cut the workspace once, and load all parts of that")
        self.parts[split] = parts
        self.given.setdefault(part, section.place)

    def lacking(self):
        """A line for what isn't there."""
        for parts in self.parts.values():
            missing = [str(it) for it in range(1, parts + 1) if it not in self.given]
            if missing:
                yield f"of {parts} parts {len(missing)} {'is' if len(missing) == 1 else 'are'} missing: {', '.join(missing[:10])}{' ..' if missing[10:] else ''}"
        missing = sorted(self.elsewhere - self.here)
        if missing:
            yield f"no part has the package of {missing[0]}" + (f", nor those of {len(missing) - 1} more" if missing[1:] else "")


def is_build(label):
    """Whether a module is a BUILD file."""
    return bool(BUILD_FILE.search(label)) and BUILD_FILE.fullmatch(label[label.rindex(":"):]) is not None


def fault_line(it):
    """A fault, as a run writes it."""
    return " ".join(filter(None, (f"{it['label']}:{it['line']}:", it["fault"], it["name"], it["detail"])))


def fault_key(it):
    """What faults are sorted by."""
    return it["label"], it["line"], int(it["fault"][1:]), it["detail"].encode("utf-8", "surrogateescape")
