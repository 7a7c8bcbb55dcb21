"""Makes what a workspace needs so that bq loads it: bzlq stubs TREE OVERLAY [--faults FILE] [--all]

Reads the BUILD and .bzl files of TREE, a directory or the file of a bundle, and writes into the folder OVERLAY `rules.schema` (the rules
that the files call, each attribute with a guessed type); for each repository that the files load from or name and that isn't there a folder
`external/NAME` with BUILD files, and .bzl files whose macros forward to rules of the schema; and copies of the files that use something that
bq leaves out, with something else instead. Nothing is written into TREE, and nothing is run. Then

    bzlq bundle TREE OVERLAY | bq QUERY

What was guessed, and what bq still can't load, is printed; with --all each place of it. Where a call of a BUILD file declares nothing over
the overlay and may declare targets in Bazel, a line on standard error says so. With --faults, labels that the F79 lines of FILE name (what
a run wrote to standard error) get a target too, if their repository isn't there. What an earlier run wrote into OVERLAY is replaced:
correct it in another folder (docs/REAL_WORKSPACES.md).

Exit status: 0; with --strict 3 if a call declares nothing; 2 if TREE can't be read or OVERLAY can't be written.
"""
import argparse
import os
import re
import sys
from collections import Counter, defaultdict

from bzlq.cli import process
from bzlq.overlay.analysis import Facts, Workspace
from bzlq.overlay.arguments import LABEL as GIVEN, LOST_ATTRIBUTE, STUB, given_files
from bzlq.overlay.copies import copies
from bzlq.overlay.definitions import definition
from bzlq.overlay.extra_targets import further_targets, text_of
from bzlq.overlay.macro_warnings import silences, warnings
from bzlq.overlay.reading import IDENTIFIER
from bzlq.overlay.schema import schema_of
from bzlq.workspace.bundle import MOST_MODULES
from bzlq.workspace.files import SCHEMA, Refused, files, is_path, likely_root

# how long the lines of a stub may be together, so that it isn't too long for bq
MOST_OF_FILE = 900_000
# how long a label's package and name may be for which a target is made: no file has a longer path
LONGEST = 4096
USES_GIVEN = f'load("{GIVEN}", "bzlq_given")\n'
COPIED = b"# A copy that tools/stubs made.\n"
# how many repositories, and kinds of what can't be loaded, are printed without --all
SHOWN = 12


def stub_files(facts):
    """The .bzl files that are loaded and aren't there, by their paths, each with the directory of its package."""
    found = {}
    for (repository, package, name), symbols in facts.stubs.items():
        directory = Workspace.joined("external", repository) if repository else ""
        directory = Workspace.joined(directory, package) if package else directory
        path = Workspace.joined(directory, name)
        if repository is None or not name.endswith(".bzl"):
            continue
        if not facts.workspace.may_hold(path):
            facts.refused.add(path)
            continue
        if not repository and any(Workspace.joined(directory, it) in facts.workspace.files for it in ("BUILD", "BUILD.bazel")):
            continue  # (a typing error: the package is there, and hasn't the file)
        known = sorted((symbol, stub) for symbol, stub in symbols.items() if IDENTIFIER.fullmatch(symbol) and not symbol.startswith("_"))
        if facts.workspace.is_own(repository):
            clauses = "".join(f', _{symbol} = "{symbol}"' for symbol, _ in known)
            text = f'load("@//{package}:{name}"{clauses})\n' + "".join(f"{symbol} = _{symbol}\n" for symbol, _ in known)
        else:
            place = (repository, package, name)
            lines = {symbol: definition(repository, symbol, stub, facts.lost_of(place, symbol)) + text_of(facts.further.get((place, symbol))) for symbol, stub in known}
            text = "\n".join(line.replace("): ", "):\n    ", 1) + "\n" for line in fitting(lines, lambda symbol: facts.loaders[place, symbol]))
            text = USES_GIVEN + text if "bzlq_given(" in text else text
        found[path] = STUB + text, directory
    return found


def fitting(lines, weight):
    """The lines by these names that a file has room for: where there are too many, those of most weight, in the order in which they stand."""
    if sum(map(len, lines.values())) <= MOST_OF_FILE:
        return list(lines.values())
    kept, left = set(), MOST_OF_FILE
    for name in sorted(lines, key=lambda it: (-weight(it), it)):
        left -= len(lines[name]) + 8
        if left > 0:
            kept.add(name)
    return [line for name, line in lines.items() if name in kept]


DANGLING = re.compile(rb" F79 DanglingLabel @([\w.+~-]+)//([^:\n]*):([^\n]+)$", re.M)


def decoded(parts):
    """The parts of a label as texts; without a name it has that of its package."""
    repository, package, name = (it.decode("ascii", "replace") for it in parts)
    return repository, package, name or package.rpartition("/")[2] or repository


def labels_written(facts):
    """The labels of other repositories that stand in the texts of the workspace's files."""
    return {decoded(label) for path in facts.reached if not path.startswith("external/") for label in facts.workspace.files[path].labels}


def named_targets(facts, faults):
    """The labels of repositories that aren't there which the BUILD files, what they load and these fault lines name, by their packages."""
    found = defaultdict(set)
    for repository, package, name in labels_written(facts) | set(map(decoded, DANGLING.findall(faults))):
        is_valid = len(package) + len(name) <= LONGEST and is_path(name) and is_path(f"external/{repository}/{package}".rstrip("/"))
        is_target = not name.endswith(".bzl") and name not in ("__pkg__", "__subpackages__")
        if is_valid and is_target and repository not in facts.workspace.repositories:
            found[repository, package].add(name)
    return found


def is_below(path, directory, packages):
    """Whether a path lies in a package below this directory."""
    above = os.path.dirname(path)
    while len(above) > len(directory):
        if above in packages:
            return True
        above = os.path.dirname(above)
    return False


def build_files(workspace, targets, bzl_files, room, written):
    """BUILD files for stubs and for labels that are named, as far as there is room for modules. `written` are the labels that stand in texts. What a
    label of a repository that isn't there names has the kind of a group, which is made up."""
    packages = {directory: set() for _, directory in bzl_files.values() if directory not in workspace.directories}
    for (repository, package), names in sorted(targets.items()):
        directory = f"external/{repository}/{package}".rstrip("/")
        if directory in packages or len(packages) < room:
            packages.setdefault(directory, set()).update(names)
    found = {}
    for directory, names in packages.items():
        repository = workspace.repository_of(f"{directory}/BUILD")
        package, lines = directory.removeprefix(f"external/{repository}").lstrip("/"), {}
        for name in sorted(names):
            if is_below(f"{directory}/{name}", directory, packages) or f"{directory}/{name}" in bzl_files or name in ("BUILD", "BUILD.bazel"):
                continue
            is_own = repository == workspace.name
            lines[name] = f'alias(name = "{name}", actual = "@//{package}:{name}")\n' if is_own else f'filegroup(name = "{name}", {LOST_ATTRIBUTE} = LOST)\n'
        head = f'LOST = ["kind: @{repository} isn\'t there"]\n' if any(LOST_ATTRIBUTE in it for it in lines.values()) else ""
        # (those that a text names go before those that a macro makes up)
        found[f"{directory}/BUILD"] = STUB + head + "".join(fitting(lines, lambda name: (repository, package, name) in written))
    return found


def report(facts, overlay, is_all):
    """What is in an overlay, as lines."""
    schema, written, stubs, copied = overlay.schema, overlay.files, overlay.bzl_files, overlay.copied
    rules = len(schema.given)
    attributes = sum(len(given) for given in schema.given.values())
    repositories = sorted({path.split("/")[1] for path in written if path.startswith("external/")})
    names = repositories if is_all else [*repositories[:SHOWN], ".."] if len(repositories) > SHOWN else repositories
    yield f"schema: {rules} rules, {attributes} attributes that the files give them"
    yield f"stubs: {len(repositories)} repositories, {len(stubs)} .bzl files: {' '.join(names)}"
    paths, counts = sorted(copied), sum((counts for _, counts in copied.values()), Counter())
    yield f"copies: {len(paths)} files of the tree with something else in place of " + (", ".join(f"{what} ({n})" for what, n in counts.most_common()) or "nothing")
    sources = Counter(source for *_, source in schema.guesses)
    yield "types guessed not by name: " + (", ".join(f"{count} by {source}" for source, count in sources.most_common()) or "none")
    if is_all:
        yield from (f"  {path}" for path in paths)
        yield from (f"  {rule}.{name} {kind} (by {source})" for rule, name, kind, source in schema.guesses)
    if schema.dicts:
        yield "given a dict, which no type of a schema takes (copies give None): " + ", ".join(f"{rule}.{name}" for rule, name in schema.dicts)
    left = sorted(facts.left_out.items(), key=lambda it: -len(it[1]))
    for what, places in left if is_all else left[:SHOWN]:
        shown = places if is_all else places[:2]
        yield f"can't: {what}: {len(places)} places, {', '.join(shown)}{', ..' if len(shown) < len(places) else ''}"
    if len(left) > SHOWN and not is_all:
        yield f"can't: {len(left) - SHOWN} more (--all prints them)"


def write(overlay, path, text):
    """Writes a file of the overlay."""
    place = os.path.join(overlay, path)
    os.makedirs(os.path.dirname(place), exist_ok=True)
    with open(place, "wb") as file:
        file.write(text)


def remove_old(overlay):
    """Removes what an earlier run wrote: stubs, and copies, which would hide what their files say now."""
    for path in list(files(overlay)) if os.path.isdir(overlay) else []:
        with open(os.path.join(overlay, path), "rb") as file:
            text = file.read()
        if text.startswith(STUB.encode()) or text.endswith(COPIED):
            os.remove(os.path.join(overlay, path))


def marked(facts, path, text):
    """A copy, with what stands for members of what it binds, and the mark that it is one."""
    more = "".join(f"{line}\n" for line in facts.members_of(path))
    if b"bzlq_given(" in text or "bzlq_given(" in more:
        more += USES_GIVEN
    return text + (b"" if text.endswith(b"\n") else b"\n") + more.encode() + COPIED


def words_of():
    """The words of a call."""
    parser = argparse.ArgumentParser(description=__doc__, formatter_class=argparse.RawDescriptionHelpFormatter)
    parser.add_argument("tree", metavar="TREE")
    parser.add_argument("overlay", metavar="OVERLAY")
    parser.add_argument("--faults", metavar="FILE", help="fault lines of a run: their labels get targets")
    parser.add_argument("--all", action="store_true", help="print each place")
    parser.add_argument("--strict", action="store_true", help="end with status 3 if a call of a BUILD file declares nothing")
    return parser.parse_args()


def read_faults(path):
    """The bytes of a file of fault lines."""
    with open(path, "rb") as file:
        return file.read()


class Overlay:
    """The files of an overlay: `files` has their texts by their paths."""

    def __init__(self, facts, faults, copied=None):
        """`faults` are the lines of a first round; `copied` has the copies by their paths, where they are known."""
        self.facts, self.schema = facts, schema_of(facts)
        before, facts.further = facts.further, further_targets(facts, faults)
        self.bzl_files = stub_files(facts)
        self.copied = {}
        if copied is None:
            self.copied = copied_again(facts, {place[1] for place, _ in (*before, *facts.further) if place[0] is None})
        room = MOST_MODULES - len(facts.reached) - len(self.bzl_files)
        texts = {SCHEMA: self.schema.text(), **{path: text for path, (text, _) in self.bzl_files.items()}}
        texts |= build_files(facts.workspace, named_targets(facts, faults), self.bzl_files, room, labels_written(facts))
        self.files = {path: text.encode() for path, text in texts.items()}
        self.files |= {path: marked(facts, path, text) for path, (text, _) in self.copied.items()} if copied is None else copied
        if any(GIVEN.encode() in text for path, text in self.files.items() if path != SCHEMA):
            self.files |= {path: text.encode() for path, text in given_files(self.schema, facts, STUB).items()}

    def write(self, folder):
        """Writes the files, and removes those that an earlier run wrote."""
        try:
            remove_old(folder)
            for path, text in self.files.items():
                write(folder, path, text)
        except OSError as error:
            raise Refused(f"the overlay can't be written: {error.filename}: {error.strerror}") from error


def copied_again(facts, paths):
    """The copies; those that were made before are made again for these paths alone."""
    if facts.copies is None:
        facts.copies = copies(facts, facts.reached)
    elif paths:
        facts.copies = {**{path: it for path, it in facts.copies.items() if path not in paths}, **copies(facts, paths)}
    return facts.copies


def told(tree, root, found, unread, left, is_all):
    """What may be wrong with what was made. `unread` are the files that are taken as they are; `left` says for how many labels there are no targets,
    though a macro may declare them."""
    if root:
        yield f"{tree} has no WORKSPACE or MODULE.bazel, and {root} has one: is that the root?"
    yield from warnings(found, is_all)
    if left:
        yield f"{left} labels more may name targets of macros that aren't there: they lead to files, or to nothing"
    yield from (f"{it.path} is taken as it is, since it isn't read here: {it.broken.partition(': ')[2]}" for it in unread)


def stubs(words):
    """Writes the overlay, and says what is in it; gives the status."""
    tree, folder = os.path.realpath(words.tree), os.path.realpath(words.overlay)
    if folder == tree or folder.startswith(tree + "/"):
        raise Refused("the overlay must lie outside the tree: nothing is written into it")
    facts = Facts(Workspace(tree))
    overlay = Overlay(facts, read_faults(words.faults) if words.faults else b"")
    overlay.write(folder)
    silent = silences(facts)
    process.write(report(facts, overlay, words.all), sys.stdout)
    said = told(words.tree, likely_root(facts.workspace.paths), silent, facts.unread(), facts.further_left, words.all)
    process.write([f"stubs: WARNING: {line}" for line in said], sys.stderr)
    return 3 if silent and words.strict else 0


def main():
    """Reads the words of a call, and runs it."""
    words = words_of()
    return process.ended(lambda _: stubs(words), "stubs")
