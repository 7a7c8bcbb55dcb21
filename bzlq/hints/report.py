"""All lines of a run: takes what `bq` wrote to standard error, and the sources; gives the lines to write in its place."""
from collections import Counter

from bzlq.hints.fault_lines import Error, Fault, read
from bzlq.hints.faults import SECONDS, Hints
from bzlq.hints.queries import explained

# of more lines than these the causes are counted, and so many of them named
MANY, CAUSES = 20, 3


def cause(hint):
    """What many faults may have in common: the place in a macro, or else the reason."""
    if hint.inner:
        path, line, column, function = hint.inner[0]
        return f"{hint.fault.number} at {path}:{line}:{column} in {function}"
    return f"{hint.fault.number}: {hint.reason or hint.fault.detail or hint.fault.name}"


def ranked(hints):
    """The lines that name what most of these have in common, where they are many."""
    if len(hints) <= MANY:
        return []
    return [f"{count} of these by {what}" for what, count in Counter(map(cause, hints)).most_common(CAUSES) if count > 1]


def hinted(texts, sources, query="", is_all=False, is_brief=False, kept=None):
    """The lines to write, and the same as data. With `is_brief` the data lack the reasons of what follows from other faults. `kept` has hints of runs
    before, and gets those of this one."""
    lines = [read(text) for text in texts]
    faults = [it for it in lines if isinstance(it, Fault) and sources and sources.file_of(it.label)]
    hints = Hints(sources, faults, is_brief, kept)
    found = hints.all() if faults else []
    if sources:
        sources.until = None
    in_files = {id(it) for it in faults}
    written, data = [], []
    for text, it in zip(texts, lines):
        if isinstance(it, Error):
            about = explained(sources, faults, it, query)
            errors = (f"bq: {it.number} {it.name}{about}", {"number": it.number, "name": it.name, "reason": about.strip(": \n"), "detail": it.detail})
            written.append(errors[0])
            data.append(errors[1])
        elif id(it) not in in_files:
            written.append(text)
            data.append({"text": text})
    following = [it for it in found if it.follows]
    written = [it.text() for it in found if not it.follows or is_all] + written
    written += ranked([it for it in found if not it.follows])
    if following and not is_all:
        written.append(f"and {len(following)} that follow{'s' * (len(following) == 1)} from these")
    if hints.skipped:
        written.append(f"{hints.skipped} of these have no reason: looking for it is ended after {SECONDS} s")
    return written, [it.data() for it in found] + data
