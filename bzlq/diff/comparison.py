"""Which targets a change changes: takes its two sides, gives each changed target with the reason, the targets that were deleted, and the
files that are in no target."""
import os
from collections import namedtuple

from bzlq.diff.git import MODULE
from bzlq.diff.missing_edges import unseen
from bzlq.diff.settings import local_repositories, settings_of
from bzlq.diff.text_diff import hidden
from bzlq.facts.graph import users_of
from bzlq.overlay.arguments import LABEL as GIVEN, LOST
from bzlq.workspace.files import SCHEMA, is_path

SOURCE = "source file"

# `left_out` says of changed files of packages that they aren't read
Change = namedtuple("Change", "targets deleted others notes left_out")


def compare(base, head):
    """The `Change` from one side to the other."""
    targets = {}
    for label, target in head.facts.targets.items():
        if reason := reason_of(target, base.facts.targets.get(label), base, head):
            targets[label] = reason
    deleted = [label for label in base.facts.targets if label not in head.facts.targets]
    users = users_in(base) if deleted else {}
    for label in deleted:
        for user in users[label]:
            if user in head.facts.targets:
                targets.setdefault(user, f"it used {label}, which is deleted")
    for label, reason in hidden(base, head).items():
        targets.setdefault(label, reason)
    changed = changed_files(base.tree, head.tree)
    settings = settings_of(base.tree) | settings_of(head.tree)
    notes = in_local(changed, settings, base, head, targets)
    if odd := [path for path in changed if path in settings]:
        found = outward(head.facts)
        for label in found:
            targets.setdefault(label, f"{odd[0]}, and it depends on another repository")
        count = f"{len(found)} target{'s' * (len(found) != 1)}"
        notes.append(f"{' and '.join(odd)}: what depends on another repository counts as changed ({count}), and no other target")
    modules = {path for tree in (base.tree, head.tree) for path, (mode, _) in tree.entries.items() if mode == MODULE}
    notes += [f"{path} is a repository of its own: what is in it isn't read, and only its commit is compared" for path in sorted(modules)]
    # (of a repository in this one the commit stands for its files)
    used = {it for it in modules for side in (base, head) if any(target.file.startswith(f"{it}/") for target in side.facts.targets.values())}
    others = in_no_target(changed, base, head, settings | used)
    for label, reason in by_text(others, head).items():
        targets.setdefault(label, reason)
    left_out = [(path, "bq takes no file of such a name" if not is_path(path) else "what is in a repository of its own isn't read")
                for path in others if (not is_path(path) or path in modules) and package_of(path, base, head) is not None]
    return Change(targets, deleted, others, notes, [f"{path}: {why}" for path, why in left_out])


def in_local(changed, settings, base, head, targets):
    """Adds to the changed targets those that depend on a repository which lies in a folder with a change; gives what there is to say of it."""
    found, notes = {}, []
    for side in (base, head):
        for folder, names in local_repositories([side.texts[path] for path in sorted(settings) if path in side.texts], side.tree).items():
            found.setdefault(folder, set()).update(names)
    for folder, names in sorted(found.items()):
        if odd := next((path for path in changed if path.startswith(f"{folder}/")), ""):
            users = outward(head.facts, names)
            for label in users:
                targets.setdefault(label, f"{odd}, in a repository that it depends on")
            notes.append(f"{folder}: what depends on {' or '.join(f'@{it}' for it in sorted(names))} counts as changed ({len(users)} target{'s' * (len(users) != 1)})")
    return notes


def unlisted(change, side, listed):
    """The labels of a side's other targets than those that a change is known to concern, which it may concern all the same: what they depend on isn't all
    known."""
    if not (change.targets or change.deleted or change.others):
        return []
    return [label for label, it in side.facts.targets.items() if label not in listed and any(LOST.get(text.partition(":")[0]) for text in it.lost)]


def by_text(paths, side):
    """The targets that name one of these files in an attribute whose type was guessed, each with the reason."""
    found, by_place = {}, {(package_of(path, side, side), path): path for path in paths}
    for target in side.facts.targets.values():
        for text in target.lost:
            word, _, name = text.partition(": ")
            value = target.attributes.get(name, ())
            package = os.path.dirname(target.file)
            for part in (value if isinstance(value, list) else [value]) if word == "edges" else ():
                if isinstance(part, str) and (path := by_place.get((package, os.path.join(package, part)))):
                    found[target.label] = f"{name} has {path}"
    return found


def package_of(path, *sides):
    """The nearest directory above with a BUILD file, in one of the sides; nothing where there is none."""
    packages = {os.path.dirname(it) for side in sides for it in side.packages}
    return next((it for it in ways(os.path.dirname(path)) if it in packages), "" if "" in packages else None)


def users_in(side):
    """The targets of a side that depend on each directly, also where an overlay leaves that out."""
    found = users_of(side.facts.targets)
    for label, others in unseen(side).items():
        for it in sorted(others):
            found[it].append(label)
    return found


def reason_of(target, before, base, head):
    """Why a target counts as changed; nothing where it doesn't."""
    if before is None:
        return "new"
    if before.kind != target.kind:
        return f"kind, before {before.kind}"
    if target.kind == SOURCE:
        return "contents" if base.tree.identity(target.file) != head.tree.identity(target.file) else ""
    names = [*target.attributes, *(name for name in before.attributes if name not in target.attributes)]
    odd = [name for name in names if differ(target.attributes.get(name), before.attributes.get(name))]
    if odd:
        return f"attribute{'s' * (len(odd) > 1)} {', '.join(odd)}"
    return "deps" if list(target.deps) != list(before.deps) else ""


def differ(one, two):
    """Whether two values of an attribute differ."""
    # (True is 1 in Python)
    return type(one) is not type(two) or one != two


def outward(facts, names=()):
    """The targets with an edge into another repository, and those of packages that load a file of one; with names into one of these."""
    def is_out(label):
        return label.startswith("@") and label != GIVEN and (not names or label[1:].partition("//")[0].lstrip("@") in names)

    loading, count = set(), -1
    while count != len(loading):
        count = len(loading)
        loading |= {it.label for it in facts.modules.values() if any(is_out(load.label) or load.label in loading for load in it.loads)}
    files = {facts.modules[label].file for label in loading}
    return [label for label, it in facts.targets.items() if not label.startswith("@") and it.kind != SOURCE
            and (it.file in files or any(is_out(dep) for dep in [*it.deps, *named(it)]))]


def named(target):
    """The texts that the attributes of a target have."""
    for value in target.attributes.values():
        yield from value if isinstance(value, list) else [value] if isinstance(value, str) else []


def changed_files(base, head):
    """The paths of what differs, but for folders."""
    paths = {path for path in {**base.entries, **head.entries} if base.entries.get(path) != head.entries.get(path)}
    return sorted(path for path in paths if any(tree.entries.get(path, ("040000",))[0] != "040000" for tree in (base, head)))


def in_no_target(changed, base, head, settings):
    """Changed files that neither a target nor a module is made of."""
    known = {SCHEMA, ".bazelignore", *settings}
    for side in (base, head):
        files = {it.file for it in side.facts.targets.values() if it.kind == SOURCE} | {it.file for it in side.facts.modules.values()}
        known |= files | {side.tree.real(path) for path in files}
    return [path for path in changed if not any(it in known for it in ways(path))]


def ways(path):
    """A path, and the folders above it."""
    while path:
        yield path
        path = os.path.dirname(path)
