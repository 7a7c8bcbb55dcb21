"""Lists the files that several rules have as sources: bzlq shared [--dir DIR | --bundle FILE] [QUERY]

    $ bzlq shared
    //log:log.c
      log/BUILD:3: //log:log (srcs)
      log/BUILD:9: //log:log_debug (srcs)

Sources are what `srcs` and `hdrs` name; a file in another attribute is not counted. With QUERY only its rules count.

Status: 0; 3 if files have faults, so that something may be missing; 2 if nothing can be answered; 4, 5 as for bq.
"""
from bzlq.cli.request import parser_of, run

SOURCES = ("srcs", "hdrs")


def shared(asked):
    """The lines of the files that several rules have as sources."""
    users = {}
    files = asked.facts().targets
    rules = asked.facts(asked.query(asked.words.query)).targets if asked.words.query else files
    for target in rules.values():
        for name in SOURCES:
            value = target.attributes.get(name, ())
            for label in value if isinstance(value, list) else ():
                users.setdefault(label, {}).setdefault(target.label, (target, name))
    for label, by in sorted(users.items()):
        if len(by) > 1 and label in files and files[label].kind == "source file":
            yield label
            yield from (f"  {asked.path(target.file)}:{target.line}: {target.label} ({name})" for target, name in by.values())


def main():
    """Reads the words of a call, and runs it."""
    parser = parser_of(__doc__)
    parser.add_argument("query", metavar="QUERY", nargs="?", default="")
    return run(shared, parser.parse_args())
