"""Says who may depend on what: bzlq visible [--dir DIR | --bundle FILE] [A B | QUERY]

    $ bzlq visible //app //log
    log/BUILD:3: //log:log is visible to //app: //app:__subpackages__
    $ bzlq visible
    app/BUILD:2: //app:app -> //log:gen (deps): private by default (log/BUILD:1)

With A and B it says whether A, or a target of that package that doesn't exist yet, may depend on B, and by which line of visibility. Without them
it lists the edges that break a visibility (with QUERY only those of its targets): Bazel refuses them in an analysis. The rules are Bazel's: a
target has its own visibility, else its package's default_visibility, else it is private; a file has that of exports_files, a generated file that
of its rule; a package always sees its own targets.

Status: 0; 1 if B isn't visible to A, or an edge breaks a visibility; 3 if something isn't known, since files have faults, or a macro or a value
isn't there; 2 if nothing can be answered; 4, 5 as for bq.
"""
import json
import os
import subprocess

from bzlq.cli.request import parser_of, run
from bzlq.facts.graph import edge
from bzlq.facts.visibility import Visibility
from bzlq.overlay.assembly import run_options
from bzlq.workspace.bundle import is_large, merged, written
from bzlq.workspace.files import Refused, content, has_content, parts

PROBE = "bzlq_probe_"


def evaluated(asked, hidden):
    """The lists that expressions of BUILD files stand for: a target of each is added to a copy of its file, and bq evaluates it."""
    found = dict(parts(asked.bundle)) if asked.bundle else {it: content(asked.root, it) if has_content(it) else b"" for it in merged([asked.root])}
    expressions = [(path, text) for path, texts in sorted(hidden.items()) for text in sorted(texts)]
    for number, (path, text) in enumerate(expressions):
        found[path] += f'\nfilegroup(name = "{PROBE}{number}", tags = ({text}))\n'.encode("latin-1")
    bundle = b"".join(written(path, text) for path, text in found.items())
    ended = subprocess.run([asked.program, *run_options(is_large(bundle)), "--facts"], input=bundle, capture_output=True, check=False)
    told = [json.loads(line) for line in ended.stdout.splitlines() if PROBE.encode() in line and line.startswith(b'{"target"')]
    return {expressions[int(it["attributes"]["name"].removeprefix(PROBE))]: it["attributes"].get("tags", []) for it in told if PROBE in it["target"]}


def settled(asked, facts, look):
    """What `look` finds in the visibility of a workspace, once what it looks at is evaluated."""
    found = Visibility(facts, asked.sources().text)
    looked = look(found)
    if found.hidden:
        found = Visibility(facts, found.text_of, evaluated(asked, found.hidden))
        looked = look(found)
    return found, looked


def package_of(label):
    """The package of a label, as its first part."""
    return label.partition(":")[0]


class Places:
    """Where a visibility is said: takes a target and what its visibility is."""

    def __init__(self, asked, facts):
        self.asked = asked
        self.files = {label.rpartition(":")[0]: it.file for label, it in facts.modules.items() if label.endswith((":BUILD", ":BUILD.bazel"))}

    def of(self, target, said):
        """The place that says what a target's visibility is."""
        build = target.file if target.kind != "source file" else self.files.get(package_of(target.label), target.file)
        return f"{self.asked.path(build)}:{said.line or 1}"

    def line(self, source, target, said):
        """The line of an edge."""
        return f"{edge(source, target.label, self.asked.path)}: {said.text()} ({self.of(target, said)})"


def crossing(facts, sources):
    """The edges of these targets that lead into another package."""
    for target in sources:
        for dep in target.deps if target.kind.endswith(" rule") else ():
            if package_of(dep) != package_of(target.label) and dep in facts.targets:
                yield target, facts.targets[dep]


def is_there(asked, target):
    """Whether a target is one of the workspace's own files, and not of those that stand in for other repositories."""
    return not asked.overlay or os.path.lexists(os.path.join(asked.root, target.file))


def breaches(asked):
    """The lines of the edges that break a visibility."""
    facts = asked.facts()
    wanted = asked.facts(asked.query(asked.words.words[0])).targets if asked.words.words else facts.targets
    edges, places = list(crossing(facts, wanted.values())), Places(asked, facts)
    own = {target.file: is_there(asked, target) for _, target in edges}
    pairs = [(source, target) for source, target in edges if own[target.file]]
    if away := len(edges) - len(pairs):
        asked.notes.append(f"{away} edge{'s lead' if away > 1 else ' leads'} into repositories that aren't there, whose visibility isn't known")

    def look(visibility):
        found = {}
        for source, target in pairs:
            key = target.label, package_of(source.label)
            if key not in found:
                said = visibility.of(target)
                found[key] = said, visibility.lets(said, key[1])
        return found

    _, known = settled(asked, facts, look)
    for source, target in pairs:
        said, way = known[target.label, package_of(source.label)]
        if way == []:
            asked.status = 1
            yield places.line(source, target, said)
        elif way is None:
            asked.unknown.append(places.line(source, target, said))


def of_two(asked, one, two):
    """Whether one may depend on the other."""
    facts = asked.facts()
    package, target = package_of(asked.label(one)), asked.target(two, facts.targets)
    if not is_there(asked, target):
        raise Refused(f"the repository of {target.label} isn't there, so its visibility isn't known")
    found, way = settled(asked, facts, lambda it: it.lets(it.of(target), package))
    said = found.of(target)
    where = Places(asked, facts).of(target, said)
    # (what is wrong elsewhere changes nothing here)
    asked.faults, asked.warnings, asked.lost = [], [], None
    if package == package_of(target.label):
        return [f"{target.label} is visible to {package}, its own package"]
    if way:
        return [f"{where}: {target.label} is visible to {package}: {' > '.join(way)}{f' {said.how}' if said.how else ''}"]
    if way is None:
        asked.unknown.append(f"{where}: whether {target.label} is visible to {package}: {said.text()}")
        return []
    asked.status = 1
    return [f"{where}: {target.label} isn't visible to {package}: {said.text()}"]


def visible(asked):
    """The lines of the answer."""
    words = asked.words.words
    if len(words) > 2:
        raise Refused("visible takes A and B, or one query")
    return of_two(asked, *words) if len(words) == 2 else breaches(asked)


def main():
    """Reads the words of a call, and runs it."""
    parser = parser_of(__doc__)
    parser.add_argument("words", metavar="A B | QUERY", nargs="*")
    return run(visible, parser.parse_args())
