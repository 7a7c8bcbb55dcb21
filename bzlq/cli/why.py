"""Says why a target depends on another: bzlq why [--dir DIR | --bundle FILE] A B

    $ bzlq why //app //log:log.c
    app/BUILD:2: //app:app -> //log:log (srcs)
    log/BUILD:2: //log:log -> //log:log.c (srcs)

Writes a shortest path from A to B, an edge a line: the place of the statement that declares the target, the edge, and the attribute that
names it. If A doesn't depend on B, a line on standard error says so. A word that starts with neither `//` nor `@` is relative to the current
folder.

Status: 0; 3 if files have faults, so that edges may be missing; 2 if nothing can be answered; 4, 5 as for bq.
"""
import sys

from bzlq.cli.process import write
from bzlq.cli.request import parser_of, run
from bzlq.facts.graph import edges, shortest


def why(asked):
    """The lines of a shortest path."""
    targets = asked.facts().targets
    start, end = (asked.target(word, targets).label for word in (asked.words.a, asked.words.b))
    found = shortest(start, end, lambda label: targets[label].deps)
    if not found:
        write([f"why: {start} doesn't depend on {end}"], sys.stderr)
    elif start == end:
        write([f"why: {start} is the same target"], sys.stderr)
    return edges(found, targets, asked.path)


def main():
    """Reads the words of a call, and runs it."""
    parser = parser_of(__doc__)
    parser.add_argument("a", metavar="A")
    parser.add_argument("b", metavar="B")
    return run(why, parser.parse_args())
