"""Lists the cycles of targets: bzlq cycles [--dir DIR | --bundle FILE] [QUERY]

    $ bzlq cycles
    3 targets depend on one another: //a:a //b:b //c:c
      a/BUILD:1: //a:a -> //b:b (srcs)
      b/BUILD:1: //b:b -> //a:a (srcs)

For each set of targets that depend on one another: how many they are, their labels, and below them the shortest cycle, an edge a line with
the place of the statement and the attribute. With QUERY only its targets count.

Status: 0, also if there is no cycle; 3 if files have faults; 2 if nothing can be answered; 4, 5 as for bq.
"""
from bzlq.cli.request import parser_of, run
from bzlq.facts.graph import components, edges, shortest_cycle


def cycles(asked):
    """The lines of the cycles."""
    targets = asked.facts(asked.query(asked.words.query)).targets

    def next_of(label):
        return (dep for dep in targets[label].deps if dep in targets)

    for members in components(targets, next_of):
        yield f"{len(members)} targets depend on one another: {' '.join(members)}"
        yield from (f"  {it}" for it in edges(shortest_cycle(members, next_of), targets, asked.path))


def main():
    """Reads the words of a call, and runs it."""
    parser = parser_of(__doc__)
    parser.add_argument("query", metavar="QUERY", nargs="?", default="")
    return run(cycles, parser.parse_args())
