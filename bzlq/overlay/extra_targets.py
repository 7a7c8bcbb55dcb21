"""Further targets of macros that aren't there, or that one target stands for: labels that lead to nothing, and begin with the name of a call of such a macro in their package, as
`//a:x-and-hashes` after `release_filegroup(name = "x")`. The stub of the macro declares them as groups that depend on the target of the call."""
import re
from collections import defaultdict

from bzlq.overlay.arguments import LOST_ATTRIBUTE
from bzlq.overlay.starlark_text import starlark
from bzlq.workspace.files import is_path

# what is said of such a target, whose kind isn't known: it may be a file that a rule makes
NAMED = "kind: named by labels alone"
# how many further targets a macro has at most: they stand in one text
MOST = 4000
DANGLING = re.compile(rb" F79 DanglingLabel //([^:\n]*):([^\n]+)$", re.M)
LISTED = re.compile(rb"^(?:source file|(.*) rule) //([^:\n]*):([^\n]+)$", re.M)


def phantoms(listed, paths):
    """Lines as those of faults, for labels that are taken for source files of their own package, where no such file is: takes the targets of a run with
    their kinds, and the paths of the files."""
    files, rules = [], defaultdict(set)
    for kind, package, name in LISTED.findall(listed):
        if kind:
            rules[package].add(name)
        else:
            files.append((package, name))
    # (what follows a dot is mostly the ending of a file that a call is given)
    odd = [(package, name) for package, name in files if (of := owner(name, rules[package], b"")) and name[len(of):][:1] != b"." and (package + b"/" + name).lstrip(b"/").decode("utf-8", "replace") not in paths]
    return b"".join(b"//%s:BUILD:0: F79 DanglingLabel //%s:%s\n" % (package, package, name) for package, name in odd)


def owner(name, names, nothing=""):
    """The longest of the names that this one begins with, up to a letter or digit."""
    starts = (name[:at] for at in range(len(name) - 1, 0, -1) if not name[at:at + 1].isalnum())
    return next((it for it in starts if it in names), nothing)


def further_targets(facts, faults):
    """Of each such macro, by its place and name: (package and name of a call, further name) for the labels of these fault lines. Of a macro that would
    have too many the others are counted."""
    dangling, found, facts.further_left = defaultdict(set), defaultdict(list), 0
    for package, name in DANGLING.findall(faults):
        dangling[package.decode("ascii", "replace")].add(name.decode("ascii", "replace"))
    for package, names in dangling.items():
        file = facts.workspace.build_file(package)
        calls = {it.target: it.name for it in file.calls if it.target and it.name in file.globals} if file else {}
        for name in sorted(names):
            of = owner(name, calls)
            origin = facts.origin(file, calls[of]) if of else None
            if not (origin and origin[0] == "stub" and facts.stub(*origin[1:]).makes_targets and is_path(name)):
                continue
            if len(found[origin[1:]]) >= MOST:
                facts.further_left += 1
            else:
                found[origin[1:]].append((f"{package}:{of}", name))
    return found


def text_of(found):
    """What a macro says after its own call to declare them."""
    table = defaultdict(list)
    for call, name in found or ():
        table[call].append(name)
    return f"; [native.filegroup(name = more, srcs = [name], {LOST_ATTRIBUTE} = [\"{NAMED}\"]) for more in {starlark(table)}.get(native.package_name() + \":\" + name, [])]" if found else ""
