"""Lists the files that load a .bzl file: bzlq loads [--dir DIR | --bundle FILE] [--direct] FILE.bzl

    $ bzlq loads tools/defs.bzl
    app/BUILD:1: //app:BUILD loads //tools:defs.bzl
    lib/BUILD:2: //lib:BUILD loads //tools:more.bzl, which loads //tools:defs.bzl

FILE.bzl is a path or a label. The list has the BUILD and .bzl files that load it, directly or through others, each with the place of its
load and a shortest path. With --direct only those that load it themselves. Lines with `names` are of WORKSPACE, MODULE.bazel, .bazelrc, and of
.bzl files that only these load.

Status: 0; 3 if files have faults; 2 if nothing can be answered; 4, 5 as for bq.
"""
from bzlq.cli.request import parser_of, run
from bzlq.facts.graph import path_to, reached
from bzlq.hints.suggestions import did_you_mean
from bzlq.workspace.files import Refused


def loads(asked):
    """The lines of the files that load the one that is asked for."""
    modules = asked.facts().modules
    label = asked.label(asked.words.file)
    path = modules[label].file if label in modules else label.removeprefix("//").replace(":", "/").lstrip("/")
    # (a module says its own loads; the others are of WORKSPACE, MODULE.bazel and .bazelrc)
    known = {it.file for it in modules.values()}
    namings = sorted({(one, line) for one, line, other in asked.namings() if other == path and one not in known})
    if label not in modules and not namings:
        raise Refused(f"no BUILD file loads {label}{did_you_mean(label, [it for it in modules if it.endswith('.bzl')])}")
    loaders = {}
    for module in modules.values():
        for load in module.loads:
            loaders.setdefault(load.label, []).append(module.label)
    before = reached([label], lambda it: loaders.get(it, ()))
    for loader in sorted(before):
        way = path_to(loader, before)[::-1]
        if len(way) == 1 or asked.words.direct and len(way) > 2:
            continue
        line = next(it.line for it in modules[loader].loads if it.label == way[1])
        yield f"{asked.path(modules[loader].file)}:{line}: {loader} loads {', which loads '.join(way[1:])}"
    yield from (f"{asked.path(one)}:{line}: {one} names {label}" for one, line in namings)


def main():
    """Reads the words of a call, and runs it."""
    parser = parser_of(__doc__)
    parser.add_argument("--direct", action="store_true", help="only those that load it themselves")
    parser.add_argument("file", metavar="FILE.bzl")
    return run(loads, parser.parse_args(), is_of_targets=False)
