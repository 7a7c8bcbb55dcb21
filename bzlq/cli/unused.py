"""Lists the rules that no other target depends on: bzlq unused [--dir DIR | --bundle FILE] [--kind PATTERN | --roots PATTERN | --bzl | --deps] [QUERY]

    $ bzlq unused
    log/BUILD:8: //log:old (filegroup rule)

Tests, binaries and test suites are left out, since nothing needs to depend on them (--roots gives another pattern for such kinds). --kind
lists only the kinds that match a pattern, and these too. --bzl lists the .bzl files instead that no BUILD file loads, directly or not, and that
WORKSPACE, MODULE.bazel, .bazelrc and what these load don't name. With QUERY only its targets are listed. Other workspaces may use a target, and so may a part of an attribute that bq leaves out: look before you remove one.

--deps lists dependencies instead that a rule may not need: no word of its sources is the name of one of their files (C and C++, Go, Java,
Python, protocol buffers, Rust). These are candidates, by names alone; how many dependencies can't be judged so is said.

Status: 0; 3 if files have faults, so that users may be missing; 2 if nothing can be answered; 4, 5 as for bq.
"""
import os

from bzlq.cli.request import parser_of, pattern, run
from bzlq.facts.graph import edge, users_of
from bzlq.facts.unnamed import Edges
from bzlq.workspace.files import Refused

ROOTS = r"_test rule$|_binary rule$|^test_suite rule$"


def unloaded(asked):
    """The .bzl files that nothing loads, and that no file of settings names."""
    loaded = {*(it.file for it in asked.facts().modules.values()), *(it for *_, it in asked.namings())}
    asked.lost = None  # (what was made up of targets changes nothing here)
    files = [path for path in sorted(asked.sources().paths) if path.endswith(".bzl") and path not in loaded]
    return [asked.path(path) for path in files if not asked.overlay or os.path.lexists(os.path.join(asked.root, path))]


def unneeded(asked):
    """The lines of the dependencies that rules may not need."""
    if not asked.root:
        raise Refused("--deps reads the sources of rules, and a bundle doesn't hold them")

    def text_of(path):
        try:
            with open(os.path.join(asked.root, path), encoding="utf-8", errors="replace") as file:
                return file.read()
        except OSError:
            return None

    targets = asked.facts().targets
    found = Edges(targets, text_of)
    for label, target in (asked.facts(asked.query(asked.words.query)).targets if asked.words.query else targets).items():
        if not label.startswith("@"):
            yield from (edge(target, it, asked.path) for it in found.unused(target))
    asked.notes += found.told()


def unused(asked):
    """The lines of the rules, of the .bzl files that nothing uses, or of the dependencies."""
    if asked.words.bzl or asked.words.deps:
        yield from unloaded(asked) if asked.words.bzl else unneeded(asked)
        return
    kinds, roots = pattern(asked.words.kind or " rule$"), pattern(asked.words.roots)
    targets = asked.facts().targets
    users = users_of(targets)
    asked_for = asked.facts(asked.query(asked.words.query)).targets if asked.words.query else targets
    for label, target in asked_for.items():
        outputs = [it for it in users[label] if targets[it].kind == "generated file"]
        is_used = any(it not in outputs for it in users[label]) or any(users[it] for it in outputs)
        is_root = roots.search(target.kind) and not asked.words.kind
        if kinds.search(target.kind) and not is_root and not is_used and not label.startswith("@"):
            yield f"{asked.path(target.file)}:{target.line or 1}: {label} ({target.kind})"


def main():
    """Reads the words of a call, and runs it."""
    parser = parser_of(__doc__)
    which = parser.add_mutually_exclusive_group()
    which.add_argument("--kind", default="", metavar="PATTERN", help="list only these kinds")
    which.add_argument("--roots", default=ROOTS, metavar="PATTERN", help=f"the kinds that nothing needs to depend on ({ROOTS})")
    which.add_argument("--bzl", action="store_true", help="list the .bzl files that no BUILD file loads, directly or not")
    which.add_argument("--deps", action="store_true", help="list the dependencies of which a rule's sources name nothing")
    parser.add_argument("query", metavar="QUERY", nargs="?", default="")
    return run(unused, parser.parse_args())
