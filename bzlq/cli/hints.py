"""Explains bq's fault lines: where they are, and why: bq .. 2>&1 >/dev/null | bzlq hints TREE

    $ bq --dir w //... 2>&1 >/dev/null | bzlq hints w
    w/app/BUILD:6:5: F71 NoAttribute: no attribute 'dta' in rule 'filegroup' (did you mean 'data'?)

Reads what bq wrote to standard error, and the workspace: TREE is the directory of --dir, or the file with the bundle; --overlay adds the
folders that bzlq bundle laid over it. Writes `PATH:LINE:COLUMN: NUMBER NAME: REASON` for each fault, and for one in a macro the places
in the macro and of the calls. Causes come first; the last line counts the faults that follow from them (a load of a file with a fault, a
label of a package with one). For an error of the query, --query has its text. Lines that it doesn't know pass unchanged.

No program of the workspace is run: an evaluator in Python, with a limit on steps, reads the files. Status 0; 2 if TREE can't be read.
"""
import argparse
import json
import os
import sys

from bzlq.cli.process import ended, write
from bzlq.hints.report import hinted
from bzlq.hints.sources import Sources


def sources_of(tree, overlays):
    """The workspace; nothing where no tree is given."""
    if tree is None:
        return None
    if os.path.isdir(tree):
        return Sources.of_directories([tree, *overlays])
    return Sources.of_bundle(tree)


def hints(words):
    """Explains the lines of standard input; gives the status."""
    texts = sys.stdin.buffer.read().decode("utf-8", "surrogateescape").splitlines()
    written, data = hinted(texts, sources_of(words.tree, words.overlay), words.query, words.all)
    write([json.dumps(it) for it in data] if words.json else written, sys.stdout)
    return 0


def main():
    """Reads the words of a call, and runs it."""
    parser = argparse.ArgumentParser(description=__doc__, formatter_class=argparse.RawDescriptionHelpFormatter)
    parser.add_argument("tree", nargs="?", metavar="TREE", help="the workspace: a directory, or the file of a bundle")
    parser.add_argument("--overlay", action="append", default=[], metavar="DIR", help="a folder to lay over TREE")
    parser.add_argument("--query", default="", metavar="QUERY", help="the query of the run")
    parser.add_argument("--all", action="store_true", help="list also the faults that follow from others")
    parser.add_argument("--json", action="store_true", help="write a JSON object for each line")
    words = parser.parse_args()
    return ended(lambda _: hints(words), "hints")
