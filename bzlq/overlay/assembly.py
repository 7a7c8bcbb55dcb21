"""The overlay of a workspace and the bundle of both: takes the root, which is a directory or a bundle, and a new folder, and has stubs.py
write the one into it, and writes the other."""
import gc
import re
import subprocess

from bzlq.overlay.approximations import blocks_of
from bzlq.overlay.extra_targets import phantoms
from bzlq.workspace.bundle import fewer, is_large_at, merged, write_bundle
from bzlq.workspace.files import content, likely_root

# Bazel bounds no file's evaluation, and there are files that take some millions of steps
MAX_STEPS = 100_000_000
# a test, as a line with its kind, and the query for those that a suite leaves out
TEST = re.compile(rb"\w+_test rule //")
MANUAL = b'attr(tags, "[\\[ ]manual[,\\]]", //...)\n'
DANGLING = re.compile(rb" F79 DanglingLabel ([^\n]+)$", re.M)
# a fault of a file itself: its repository, its package and its name there
OWN = re.compile(rb"^(?:@([^/:\n]*))?//([^:\n]*):([^:\n]*):\d+: F(?!79 )", re.M)


def run_options(is_large, max_steps=MAX_STEPS):
    """The options of a run over a bundle, which may be large."""
    return [f"--max-steps={max_steps}", *(["--large"] if is_large else [])]


def make_overlay(root, program, new, readings=None):
    """Writes `overlay` and `bundle`, with a second round where macros name targets of repositories that aren't there; gives what is to be said of
    the one and of the other, and what a patch has to know (patch.py). `readings` has what the files said before."""
    gc.disable()  # (what is made is kept until the end)
    try:
        return made_overlay(root, program, new, readings)
    finally:
        gc.enable()


def made_overlay(root, program, new, readings):
    """The same, without collections of garbage."""
    # (not at the top: most runs have their overlay)
    from bzlq.overlay import stubs
    facts = stubs.Facts(stubs.Workspace(root, readings and readings.all))
    if readings:
        readings.keep()
    before = facts.for_copies()
    overlay = stubs.Overlay(facts, b"")
    silences = stubs.silences(facts)
    said = bundle_with(overlay, f"{new}/bundle")
    faults, phantom = found_in(program, f"{new}/bundle", facts)
    if facts.suites() or b" F79 DanglingLabel " in faults + (phantom or b""):
        overlay = stubs.Overlay(facts, faults + (phantom or b""))
        bundle_with(overlay, f"{new}/bundle")
    overlay.write(f"{new}/overlay")
    warnings = list(stubs.told(root, likely_root(facts.workspace.paths), silences, unread(facts, faults), facts.further_left, False))
    return warnings, said, made_of(overlay, before, faults, phantom) if phantom is not None else None


def unread(facts, faults):
    """The files that aren't read here, but for those of which bq says itself what is wrong."""
    own = {(b"external/%s/" % it[1] if it[1] else b"") + (it[2] + b"/" if it[2] else b"") + it[3] for it in OWN.finditer(faults)}
    return [it for it in facts.unread() if it.path.encode() not in own]


def made_of(overlay, before, faults, phantom):
    """What was made, for a patch: all of it is of plain values. `before` is what decided about the copies."""
    facts, found = overlay.facts, files_of(overlay)
    labels = [[it.decode("utf-8", "surrogateescape") for it in DANGLING.findall(text)] for text in (faults, phantom)]
    return {
        "facts": facts.kept(), "for_copies": before, "copied": sorted(overlay.copied), "workspace": facts.workspace.kept(), "overlay": list(overlay.files), "refused": sorted(facts.refused),
        "unread": [it.path for it in facts.unread()], "told_unread": [it.path for it in unread(facts, faults)], "dangling": sorted(set(labels[0])), "phantoms": sorted(set(labels[1])), "tests_in": facts.tests_in,
        "named": [it for it in labels[0] if it.startswith("@") and it[1:].partition("//")[0] not in facts.workspace.repositories],
        "faults": b"".join(b"x%s\n" % it[0] for text in (faults, phantom) for it in re.finditer(rb" F79 DanglingLabel [^\n]+$", text, re.M)),
        "is_whole": len(fewer(found)) == len(found),
        "further": [f"//{call.rpartition(':')[0]}:{name}" for found in facts.further.values() for call, name in found],
    }


def bundle_with(overlay, path):
    """Writes the bundle of a workspace with an overlay; gives what is to be said of it."""
    workspace = overlay.facts.workspace
    return write_fewer(files_of(overlay), path, lambda folder, it: workspace.content(it) if folder else overlay.files[it])


def files_of(overlay):
    """The paths of the files of a workspace with an overlay, each with the folder that it is in, or nothing for those of the overlay."""
    workspace = overlay.facts.workspace
    return {it: workspace.root for it in workspace.paths} | dict.fromkeys(overlay.files, "")


def found_in(program, bundle, facts):
    """The fault lines of a first round, and such lines for labels that only seem to be files, or nothing where that can't be told; notes the tests
    of packages that have a suite of all."""
    words = [program, *run_options(is_large_at(bundle)), "--output", "label_kind", "--bundle", bundle, "--queries", "-"]
    ended = subprocess.run(words, input=b"//...:*\n" + MANUAL, capture_output=True, check=False)
    blocks = [lines for status, lines in blocks_of(ended.stdout) if status != 2]
    if len(blocks) != 2:
        return ended.stderr, None
    manual = set(blocks[1])
    tests = [it.partition(b" rule ")[2].decode("utf-8", "surrogateescape").rstrip("\n") for it in blocks[0] if TEST.match(it) and it not in manual]
    for package in facts.suites():
        facts.tests_in[package] = [it.partition(":")[2] for it in tests if it.startswith(f"//{package}:")]
    return ended.stderr, phantoms(b"".join(blocks[0]), facts.workspace.paths)


def make_bundle(folders, path):
    """Writes the bundle of folders; gives what is to be said of it."""
    return write_fewer(merged(folders), path, content)


def write_fewer(found, path, content_of):
    """Writes the bundle of paths, as many as bq reads; gives what is to be said of it."""
    with open(path, "wb") as file:
        left_out = write_bundle(fewer(found), file, content_of)
    return [f"{it} is left out: it has a line that begins with `=== `" for it in left_out]
