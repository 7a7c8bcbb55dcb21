"""Draws the graph of a query's targets: bzlq graph [--dir DIR | --bundle FILE] [-o FILE] QUERY

    $ bzlq graph -o app.svg 'deps(//app)'

Without -o the text for graphviz is written to standard output; with it a picture into FILE, by graphviz's `dot`: .svg, .png or .pdf (.dot
is the text). An edge leads to what a target depends on. Each kind has a colour, and there is a legend. More than 300 targets are grouped by
package: a node says how many targets of the query a package has, an edge how many edges lead from one to the other (--targets never
groups, --packages always does).

Status: 0; 3 if files have faults; 2 if nothing can be answered; 4, 5 as for bq.
"""
import os
import shutil
import subprocess
from collections import Counter, defaultdict

from bzlq.cli.request import parser_of, run
from bzlq.facts.graph import edge
from bzlq.workspace.files import Refused

MOST = 300
FORMS = (".svg", ".png", ".pdf", ".dot")
# colours of kinds: those of files are always the same, the others in the order of the rules that there are most of
FILES = {"source file": "#eeeeee", "generated file": "#d5d5d5", "package group": "#ffffff"}
COLOURS = ("#a6cee3", "#b2df8a", "#fdbf6f", "#cab2d6", "#fb9a99", "#ffff99", "#8dd3c7", "#fccde5", "#bebada", "#d9c29c", "#80b1d3", "#ccebc5")
OTHERS = "#c7c7ff"
HEAD = ('digraph targets {\n  rankdir="LR"\n  node [shape="box" style="filled,rounded" fontname="Helvetica" fontsize="11" color="#555555"]\n'
        '  edge [color="#777777" fontname="Helvetica" fontsize="9" arrowsize="0.7"]\n')


def quoted(text):
    """A text in the language of graphviz; a byte that is no UTF-8 is written as its number."""
    shown = text.encode("utf-8", "surrogateescape").decode("utf-8", "backslashreplace")
    return '"' + shown.replace("\\", "\\\\").replace('"', '\\"') + '"'


def colours_of(targets):
    """A colour for each kind."""
    counts = Counter(target.kind for target in targets)
    kinds = sorted(set(counts) - set(FILES), key=lambda kind: (-counts[kind], kind))
    return {**dict(zip(kinds, COLOURS)), **dict.fromkeys(kinds[len(COLOURS):], OTHERS), **{kind: FILES[kind] for kind in FILES if kind in counts}}


def legend(colours):
    """The lines of the legend."""
    yield '  subgraph cluster_legend {\n    label="kinds" fontname="Helvetica" fontsize="11" color="#bbbbbb"'
    for kind, colour in colours.items():
        yield f"    {quoted(f'kind {kind}')} [label={quoted(kind.removesuffix(' rule'))} fillcolor=\"{colour}\"]"
    yield "  }"


def of_targets(targets, colours, path):
    """The lines of a graph with a node for each target."""
    for label, target in targets.items():
        yield f"  {quoted(label)} [fillcolor=\"{colours[target.kind]}\" tooltip={quoted(f'{target.kind}, {path(target.file)}:{target.line or 1}')}]"
    for label, target in targets.items():
        for dep in (it for it in target.deps if it in targets):
            yield f"  {quoted(label)} -> {quoted(dep)} [tooltip={quoted(edge(target, dep, path))}]"


def of_packages(targets, colours):
    """The packages, each in the colour of the kind that it has most of, but for files."""
    kinds, counts = defaultdict(Counter), Counter()
    for label, target in targets.items():
        package = label.partition(":")[0]
        kinds[package][target.kind] += 1
        counts.update((package, dep.partition(":")[0]) for dep in target.deps if dep in targets)
    for package, of in kinds.items():
        most = max(sorted(of), key=lambda kind: (kind not in FILES, of[kind]))
        count = sum(of.values())
        said = f"{count} target{'s' * (count != 1)}"
        yield f"  {quoted(package)} [label={quoted(package)[:-1]}\\n{said}\" fillcolor=\"{colours[most]}\"]"
    for (one, two), count in sorted(counts.items()):
        if one != two:
            yield f"  {quoted(one)} -> {quoted(two)} [label=\"{count}\"]"


def graph(asked):
    """The lines of the graph; none where it is drawn into a file."""
    words, form = asked.words, os.path.splitext(asked.words.output)[1].lower()
    if words.output and form not in FORMS:
        raise Refused(f"{words.output}: a picture's name ends in {', '.join(FORMS[:-1])} or {FORMS[-1]}")
    if form and form != ".dot" and not shutil.which("dot"):
        raise Refused("there is no `dot` on the PATH, which draws (its package is graphviz); without -o the text for it is written")
    targets = asked.facts(asked.query(words.query)).targets
    colours = colours_of(targets.values())
    is_grouped = words.packages or len(targets) > MOST and not words.targets
    parts = of_packages(targets, colours) if is_grouped else of_targets(targets, colours, asked.path)
    lines = [HEAD.rstrip("\n"), *legend(colours), *parts, "}"]
    if not words.output:
        return lines
    if form == ".dot":
        with open(words.output, "w", encoding="utf-8") as file:
            file.write("".join(f"{line}\n" for line in lines))
        return []
    return draw(lines, form, words.output)


def draw(lines, form, path):
    """Has `dot` draw the graph into a file."""
    text = "".join(f"{line}\n" for line in lines).encode("utf-8")
    ended = subprocess.run(["dot", f"-T{form[1:]}"], input=text, capture_output=True, check=False)
    if ended.returncode:
        raise Refused(f"dot has failed: {ended.stderr.decode('utf-8', 'replace').strip()}")
    with open(path, "wb") as file:
        file.write(ended.stdout)
    return []


def main():
    """Reads the words of a call, and runs it."""
    parser = parser_of(__doc__)
    how = parser.add_mutually_exclusive_group()
    how.add_argument("--targets", action="store_true", help="a node for each target, however many there are")
    how.add_argument("--packages", action="store_true", help="a node for each package")
    parser.add_argument("-o", dest="output", default="", metavar="FILE", help="the picture")
    parser.add_argument("query", metavar="QUERY")
    return run(graph, parser.parse_args())
