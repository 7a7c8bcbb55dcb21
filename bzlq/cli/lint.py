"""The faults of some BUILD and .bzl files of the workspace that one stands in: takes the files, or asks git which have changed; writes each fault
with its hint, gives status 1 where there is one.

For BUILD files alone only the part of the workspace is read that their faults depend on, so that it takes as long as these packages are large.
"""
import os
import subprocess
import sys

from bzlq.bq import program_of
from bzlq.cache.folder import cache, room
from bzlq.cache.store import Kept
from bzlq.cli.part import part_of
from bzlq.cli.process import write
from bzlq.hints.fault_lines import Error, Fault, read
from bzlq.hints.faults import Hints
from bzlq.hints.sources import Sources
from bzlq.overlay.assembly import make_overlay, run_options
from bzlq.workspace.bundle import has_header, is_large, written
from bzlq.workspace.files import SCHEMA, Refused, has_content
from bzlq.workspace.root import root_of

# how often more packages are looked at, since faults name targets of these
ROUNDS = 3


def lint(words):
    """Writes the faults of these files; gives the status."""
    if words[:1] == ["--"]:
        words = words[1:]
    elif odd := [it for it in words if it.startswith("-")]:
        raise Refused(f"there is no option {odd[0]} of lint: it takes files (after -- also one of such a name)")
    root, program = root_of(os.getcwd()), program_of()
    paths = named(words, root) if words else {it for it in changed(root) if is_counted(it)}
    if not paths:
        return 0
    kept = Kept(root, program)
    if all(os.path.basename(it) in ("BUILD", "BUILD.bazel") for it in paths):
        found = in_part(root, program, paths, kept.shown)
        if found is not None:
            write([it.text() for it in found], sys.stdout)
            return 1 if found else 0
    bundle, warnings = kept.open()
    with bundle:
        lines = faults_in(program, bundle)
    sources = Sources.of_bundle(kept.path("bundle"), kept.shown)
    found = of_files(sources, [it for it in lines if sources.file_of(it.label)], paths)
    write([it.text() for it in found], sys.stdout)
    write([f"bzlq: targets may be missing: {it}" for it in warnings], sys.stderr)
    return 1 if found else 0


def named(words, root):
    """The BUILD and .bzl files among these, by their paths from the root; the others are told."""
    found = {os.path.relpath(os.path.realpath(it), os.path.realpath(root)): it for it in words}
    for path, word in found.items():
        if not os.path.isfile(word):
            raise Refused(f"{word}: no such file")
        if path.startswith("../"):
            raise Refused(f"{word} is not in the workspace")
    write([f"bzlq: {word} is neither a BUILD file nor a .bzl file" for path, word in found.items() if not is_counted(path)], sys.stderr)
    return {path for path in found if is_counted(path)}


def is_counted(path):
    """Whether a path is that of a BUILD or .bzl file."""
    return has_content(path) and path != SCHEMA


def faults_in(program, bundle):
    """The fault lines of a bundle."""
    text = bundle.read()
    said = subprocess.run([program, *run_options(is_large(text)), "set()"], input=text, stdout=subprocess.DEVNULL, stderr=subprocess.PIPE, check=False)
    lines = [read(text) for text in said.stderr.decode("utf-8", "surrogateescape").splitlines()]
    if errors := [it for it in lines if isinstance(it, Error)]:
        raise Refused(f"{errors[0].number} {errors[0].name} {errors[0].detail}".rstrip())
    return [it for it in lines if isinstance(it, Fault)]


def in_part(root, program, paths, shown):
    """The hints of the faults in these BUILD files, by the part of the workspace that they depend on; nothing where that can't be told from a part."""
    part = part_of(root, paths)
    for _ in range(ROUNDS):
        if any(has_header(text) for text in part.files.values()):
            return None
        with room(cache(), "lint-") as folder:
            sources, faults = of_part(part, program, folder, shown)
            wanted = {part.package_of(it) for it in packages_of(it for it in faults if sources.file_of(it.label) in paths)} - part.packages
            if not wanted:
                return of_files(sources, faults, paths)
        for directory in wanted:
            part.add(directory)
    return None


def of_part(part, program, folder, shown):
    """The files of a part with its overlay, and the faults."""
    bundle = f"{folder}/part"
    with open(bundle, "wb") as file:
        file.writelines(written(path, text) for path, text in sorted(part.files.items()))
    if SCHEMA not in part.files:
        make_overlay(bundle, program, folder)
        bundle = f"{folder}/bundle"
    with open(bundle, "rb") as file:
        lines = faults_in(program, file)
    sources = Sources.of_bundle(bundle, shown)
    return sources, [it for it in lines if sources.file_of(it.label)]


def packages_of(faults):
    """The packages of the workspace in which faults look for a target."""
    return {it.detail.partition(":")[0][2:] for it in faults if it.number == "F79" and it.detail.startswith("//")}


def of_files(sources, faults, paths):
    """The hints of the faults in these files: of a BUILD or .bzl file itself, or of a call of a macro that ends in one."""
    hints = Hints(sources, faults)
    places = {sources.place(it) for it in paths}
    if not any(it.endswith(".bzl") for it in paths):
        return [hints.hint(it) for it in faults if sources.file_of(it.label) in paths]
    return [it for it in hints.all() if it.path in places or any(path in places for path, *_ in it.inner)]


def changed(root):
    """The BUILD and .bzl files that differ from the last commit, or that git doesn't have yet."""
    words = ["git", "-C", root, "-c", "core.quotePath=false"]
    ended = [subprocess.run([*words, *it], capture_output=True, check=False) for it in (
        ("diff", "--name-only", "--relative", "--diff-filter=d", "-z", "HEAD"), ("ls-files", "--others", "--exclude-standard", "-z"))]
    if any(it.returncode for it in ended):
        raise Refused("git doesn't say which files have changed: name the files")
    return {path for it in ended for path in it.stdout.decode("utf-8", "surrogateescape").split("\0") if path and has_content(path)}
