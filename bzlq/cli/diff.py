"""Says how an answer differs between two revisions of git: bzlq diff [--output FORM] BASE [HEAD] QUERY

    $ bzlq diff v1 v2 'deps(//app)'
    + //log:log
    - //old:old

Both revisions are read without a checkout, as by bzlq affected; without HEAD the second one is the work tree with what isn't committed. A line with
+ is only in the answer of HEAD, one with - only in that of BASE. If a revision has no target of that name, its answer is empty, and a line says so.

Status: 0; 3 where an answer may lack something, since a file of its side has a fault, or by what the overlay makes up or leaves out, as standard
error says; 2 if nothing can be answered; 4, 5 as for bq.
"""
import argparse
import os
import sys
from collections import namedtuple

from bzlq.bq import ERROR, program_of
from bzlq.cache.folder import cache, room
from bzlq.cli.process import ended, write
from bzlq.cli.relative_labels import absolute
from bzlq.cli.request import SHOWN
from bzlq.diff.git import WORK_TREE, Git
from bzlq.diff.side import Side
from bzlq.overlay.approximations import Place
from bzlq.overlay.assembly import run_options
from bzlq.workspace.files import Refused
from bzlq.workspace.root import folder_of, root_of

# a query that names what isn't there: the answer is empty
NOT_THERE = ("Q5", "Q6")
# the answer of one revision: its lines, whether there is one, why it may lack some, and what is lost of it
Answer = namedtuple("Answer", "name lines is_there said lost")


def answer(words, room, name, revision, query, git):
    """The answer of one revision."""
    side = Side(git.tree(revision), f"{room}/{name}", words.program, ())
    said = [f"{name}: {it}" for it in [*side.facts.faults, *side.warnings]]
    with open(f"{room}/{name}/both", "rb") as bundle:
        run, lost, _ = Place(words.program, [*run_options(side.is_large), f"--output={words.output}"], bundle).ask(query)
    text = run.stderr.decode("utf-8", "surrogateescape").splitlines()
    if run.returncode not in (0, 3):
        error = ERROR.fullmatch(text[-1]) if text else None
        if not error or error["number"] not in NOT_THERE:
            raise Refused(text[-1].removeprefix("bq: ") if text else f"bq has ended with status {run.returncode}")
        write([f"diff: {name}: nothing is called {error['detail']}"], sys.stderr)
        return Answer(name, [], False, said, None)
    return Answer(name, run.stdout.decode("utf-8", "surrogateescape").splitlines(), True, said, lost)


def diff(words):
    """Writes what differs; gives the status."""
    *revisions, query = words.words
    if not 1 <= len(revisions) <= 2:
        raise Refused("diff takes BASE, HEAD and a query")
    words.program = program_of(words.program)
    root = root_of(os.getcwd())
    query = absolute(query, root, folder_of(root))
    with room(cache(), "affected-") as folder:
        git = Git(root, folder)
        sides = (("base", revisions[0]), ("head", revisions[1] if revisions[1:] else WORK_TREE))
        before, after = (answer(words, folder, name, revision, query, git) for name, revision in sides)
    if not before.is_there and not after.is_there:
        raise Refused("neither revision has an answer")
    marks = {**dict.fromkeys(set(before.lines) - set(after.lines), "-"), **dict.fromkeys(set(after.lines) - set(before.lines), "+")}
    write([f"{marks[it]} {it}" for it in sorted(marks, key=lambda line: line.rpartition(" ")[2])], sys.stdout)
    said, lost = before.said + after.said, [it for it in (before, after) if it.lost]
    write([f"diff: targets may be missing: {it}" for it in said[:SHOWN]] + ([f"diff: and {len(said) - SHOWN} more such lines"] if said[SHOWN:] else []), sys.stderr)
    write([f"diff: {it.name}: {line}" for it in lost for line in it.lost.lines()], sys.stderr)
    return 3 if said or any(it.lost.may_lack() for it in lost) else 0


def main():
    """Reads the words of a call, and runs it."""
    parser = argparse.ArgumentParser(description=__doc__, formatter_class=argparse.RawDescriptionHelpFormatter)
    parser.add_argument("--output", choices=("label", "label_kind"), default="label", help="with kinds too")
    parser.add_argument("--program", default="", metavar="PROGRAM", help="the program bq (else $BZLQ_BQ, else the one of this repository)")
    parser.add_argument("words", metavar="BASE [HEAD] QUERY", nargs="+")
    words = parser.parse_args()
    return ended(lambda _: diff(words))
