"""Paths in the graph of targets: takes the targets that facts have, gives who uses what, shortest paths, cycles, and the text of an edge."""
from collections import deque


def users_of(targets):
    """The targets that depend on each directly, in order."""
    found = {label: [] for label in targets}
    for label, target in targets.items():
        for dep in target.deps:
            found.setdefault(dep, []).append(label)
    return found


def reached(starts, next_of):
    """All that these lead to, those nearest first, each with the one before it on a shortest way."""
    before = dict.fromkeys(starts)
    pending = deque(before)
    while pending:
        at = pending.popleft()
        for other in next_of(at):
            if other not in before:
                before[other] = at
                pending.append(other)
    return before


def path_to(end, before):
    """The path that leads to an end, by what is before each."""
    found = [end]
    while before[found[-1]] is not None:
        found.append(before[found[-1]])
    return found[::-1]


def shortest(start, end, next_of):
    """A shortest path; nothing where there is none."""
    before = reached([start], next_of)
    return path_to(end, before) if end in before else []


def attribute_of(target, dep):
    """The attribute by which a target depends on another."""
    for name, value in target.attributes.items():
        if name != "name" and (value == dep or isinstance(value, list) and dep in value):
            return name
    return {"generated file": "made by", "package group": "includes"}.get(target.kind, "")


def edge(target, dep, path=str):
    """An edge's text, with its place and attribute. `path` shows the path of a file."""
    name = attribute_of(target, dep)
    return f"{path(target.file)}:{target.line}: {target.label} -> {dep}" + (f" ({name})" if name else "")


def edges(found, targets, path=str):
    """The texts of a path's edges."""
    return [edge(targets[one], two, path) for one, two in zip(found, found[1:])]


def components(nodes, next_of):
    """The sets of nodes that lead to one another, those of more than one, as Tarjan finds them."""
    number, low, stack, on_stack, found = {}, {}, [], set(), []
    for root in nodes:
        work = [] if root in number else [(root, iter(next_of(root)))]
        while work:
            at, rest = work[-1]
            if at not in number:
                number[at] = low[at] = len(number)
                stack.append(at)
                on_stack.add(at)
            other = next((it for it in rest if it not in number or it in on_stack), None)
            if other is not None:
                low[at] = min(low[at], number.get(other, low[at]))
                work += [] if other in number else [(other, iter(next_of(other)))]
                continue
            work.pop()
            if work:
                low[work[-1][0]] = min(low[work[-1][0]], low[at])
            if low[at] == number[at]:
                members = stack[stack.index(at):]
                del stack[-len(members):]
                on_stack.difference_update(members)
                found += [sorted(members)] if len(members) > 1 else []
    return sorted(found)


def shortest_cycle(members, next_of):
    """A shortest cycle among nodes that lead to one another."""
    inside, best = set(members), []
    for start in members:
        before, end = {start: None}, None
        pending = deque([(start, 1)])
        while pending and end is None:
            at, length = pending.popleft()
            if best and length >= len(best) - 1:
                break
            for other in next_of(at):
                if other == start:
                    end = at
                    break
                if other in inside and other not in before:
                    before[other] = at
                    pending.append((other, length + 1))
        if end is not None:
            best = [*path_to(end, before), start]
    return best
