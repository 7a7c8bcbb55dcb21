"""Joins the facts of parts of a workspace, and answers over the whole: bzlq join [-o DATABASE] [--query QUERY] FACTS ..

    $ bzlq facts --split 8 -o parts
    $ ls parts/*.bundle | xargs -P 4 -I{} sh -c 'bq --max-steps=100000000 --bundle {} --facts > {}.facts'
    $ bzlq join -o whole.db parts/*.facts
    $ bzlq join --query 'rdeps(//..., //log:log.c)' whole.db

FACTS are files that `bq --facts` wrote, each of a part of one workspace (- is standard input), or one database that was made of such files. The
answer, the fault lines and the status are those of a run over the whole, but for what files print. A query may have words, sets, `let`, `deps`,
`rdeps`, `allpaths` and `kind`; --sql writes the statement that it is, for other engines. With --dask ADDRESS the workers of that scheduler of
Dask load the parts, which are then bundles or facts in a place that all workers see, and follow the edges (docs/SCALE.md).

Status: 0; 3 if files have faults, or a part isn't there, which standard error names; 2 if nothing can be answered.
"""
import argparse
import os
import sys

from bzlq.bq import bytes_of, program_of
from bzlq.cli.process import ended, write
from bzlq.facts import database
from bzlq.facts.parts_query import check_words, matching, read
from bzlq.facts.sections import sections_of
from bzlq.facts.sql import statement
from bzlq.workspace.files import Refused

FORMS = {"label": lambda label, kind: label, "label_kind": lambda label, kind: f"{kind} {label}"}


def joined(words):
    """The database of the files that are named."""
    if any(database.is_database(it) for it in words.facts):
        if words.facts[1:] or words.output_file:
            raise Refused("a database is joined already: name it alone, and without -o")
        return database.opened(words.facts[0])
    path = words.output_file or ":memory:"
    if words.output_file:
        new = f"{path}.{os.getpid()}.new"
        try:
            database.made((it for name in words.facts for it in sections_of(name)), new).connection.close()
            os.rename(new, path)
        finally:
            if os.path.exists(new):
                os.remove(new)
        return database.opened(path)
    return database.made(it for name in words.facts for it in sections_of(name))


def asked(found, query, program):
    """The statement of a query."""
    tree = read(program, query)
    check_words(tree, lambda it: has(found, "package", it), lambda it: has(found, "target", it))
    return statement(tree, lambda pattern: matching(program, pattern, [it for it, in found.rows("SELECT DISTINCT kind FROM target ORDER BY kind")]))


def has(found, table, label):
    """Whether a table has a label."""
    return found.rows(f"SELECT 1 FROM {table} WHERE label = ?", label).fetchone() is not None


def join(words, name):
    """Joins, and writes what is asked for; gives the status."""
    found = joined(words)
    faults, lacking = found.faults(), found.lacking()
    write([*faults, *(f"{name}: {it}" for it in lacking)], sys.stderr)
    if words.query:
        text = asked(found, words.query, program_of(words.program))
        write([f"{text};"] if words.sql else (FORMS[words.output](*row) for row in found.rows(text)), sys.stdout)
    else:
        counts = {it: found.rows(f"SELECT count(*) FROM {it}").fetchone()[0] for it in ("target", "edge", "package", "fault")}
        write([", ".join(f"{count:,} {it}{'s' * (count != 1)}" for it, count in counts.items())], sys.stdout)
    return 3 if faults or lacking else 0


def by_dask(words, name):
    """The same by the workers of a scheduler of Dask."""
    from bzlq.facts.by_dask import Joined  # (not at the top: it wants Dask, which others don't need)
    if not words.query:
        raise Refused("--dask wants a --query: what it joins is in the workers' memory alone")
    program = program_of(words.program)
    tree = read(program, words.query)
    with Joined(words.dask, words.facts, program) as found:
        faults, lacking = found.faults, found.lacking
        write([*faults, *(f"{name}: {it}" for it in lacking)], sys.stderr)
        check_words(tree, found.has_package, found.has_target)
        write((FORMS[words.output](*row) for row in found.answer(tree, lambda pattern: matching(program, pattern, found.kinds))), sys.stdout)
    return 3 if faults or lacking else 0


def main():
    """Reads the words of a call, and runs it."""
    parser = argparse.ArgumentParser(description=__doc__, formatter_class=argparse.RawDescriptionHelpFormatter)
    parser.add_argument("-o", dest="output_file", metavar="DATABASE", default="", help="the file of SQLite to write (else it is in memory, for one query)")
    parser.add_argument("-q", "--query", metavar="QUERY", default="", help="the query to answer (else how many targets there are)")
    parser.add_argument("--output", choices=sorted(FORMS), default="label", help="how each target is written")
    parser.add_argument("--sql", action="store_true", help="write the query as a statement of SQL, and not its answer")
    parser.add_argument("--dask", metavar="ADDRESS", default="", help="the address of a scheduler of Dask, as tcp://HOST:8786, whose workers do the work")
    parser.add_argument("--program", default="", metavar="PROGRAM", help="the program bq (else $BZLQ_BQ, else the one of this repository)")
    parser.add_argument("facts", metavar="FACTS", nargs="+")
    words = parser.parse_args()
    if words.query:
        bytes_of(words.query)
    if words.dask and (words.output_file or words.sql):
        parser.error("--dask goes with neither -o nor --sql")
    return ended(lambda name: by_dask(words, name) if words.dask else join(words, name))
