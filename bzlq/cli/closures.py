"""Lists the targets that depend on most others: bzlq closures [--dir DIR | --bundle FILE] [-n COUNT] [QUERY]

    $ bzlq closures -n 2
    412 //app:server
     96 //log:log

For each rule the number of targets that it depends on, directly or not, the largest first. With QUERY only its targets are listed; what
they depend on is counted in the whole workspace.

Status: 0; 3 if files have faults, so that edges may be missing; 2 if nothing can be answered; 4, 5 as for bq.
"""
from bzlq.cli.request import parser_of, run
from bzlq.facts.graph import components
from bzlq.workspace.files import Refused

LISTED = 10


def sizes(targets):
    """How many targets each one depends on."""
    # (targets that depend on one another have the same closure; below, each set of bits goes once all have used it)
    together = {label: members for members in components(targets, lambda it: (dep for dep in targets[it].deps if dep in targets)) for label in members}
    first = {label: together.get(label, [label])[0] for label in targets}
    deps = {}
    for label, target in targets.items():
        deps.setdefault(first[label], set()).update(first[it] for it in target.deps if it in targets)
    users = dict.fromkeys(deps, 0)
    for group, found in deps.items():
        found.discard(group)
        for it in found:
            users[it] += 1
    numbers, bits, counts = {label: n for n, label in enumerate(targets)}, {}, {}
    for group in in_order(deps):
        found = 0
        for it in deps[group]:
            found |= bits[it]
            users[it] -= 1
            if not users[it]:
                del bits[it]
        for it in together.get(group, [group]):
            found |= 1 << numbers[it]
        counts[group] = found.bit_count() - 1
        if users[group]:
            bits[group] = found
    return {label: counts[first[label]] for label in targets}


def in_order(deps):
    """The groups, each after those that it depends on."""
    found, done = [], set()
    for root in deps:
        work = [(root, iter(deps[root]))] if root not in done else []
        done.add(root)
        while work:
            other = next((it for it in work[-1][1] if it not in done), None)
            if other is None:
                found.append(work.pop()[0])
            else:
                done.add(other)
                work.append((other, iter(deps[other])))
    return found


def closures(asked):
    """The lines of the targets that depend on most others."""
    words = asked.words
    if words.count < 1:
        raise Refused("-n takes a number of 1 or more")
    targets = asked.facts().targets
    counts = sizes(targets)
    wanted = asked.facts(asked.query(words.query)).targets if words.query else [it for it in targets if targets[it].kind.endswith(" rule")]
    listed = sorted(wanted, key=lambda it: (-counts[it], it))[:words.count]
    width = len(str(counts[listed[0]])) if listed else 0
    return [f"{counts[it]:>{width}} {it}" for it in listed]


def main():
    """Reads the words of a call, and runs it."""
    parser = parser_of(__doc__)
    parser.add_argument("-n", dest="count", type=int, default=LISTED, metavar="COUNT", help=f"how many are listed ({LISTED})")
    parser.add_argument("query", metavar="QUERY", nargs="?", default="")
    return run(closures, parser.parse_args())
