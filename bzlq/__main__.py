#!/usr/bin/env python3
"""Queries the workspace that you are in: bzlq [query] [OPTION ..] QUERY, or bzlq COMMAND ..

    ~/workspace/lib$ bzlq 'rdeps(//..., x.c)'
    ~/workspace/lib$ bzlq query --output label_kind :all

Finds the root upwards, by MODULE.bazel, REPO.bazel, WORKSPACE or WORKSPACE.bazel. Words that start with neither `//` nor `@` are relative to
the current folder: `:x`, `...`, `lib:x`, `lib/x.c` (the label of that file). The stubs for other repositories, and the bundle that bq reads,
are kept in $XDG_CACHE_HOME/bzlq (~/.cache/bzlq), and made anew when a BUILD, .bzl or schema file has changed, by names, sizes and times; a
workspace with a rules.schema at its root is read as it is. Fault lines pass through `bzlq hints`.

Options are those of bq: --jobs N, --output FORM, --max-steps N, --large, --facts, --queries FILE, --explain NUMBER. Options of Bazel that say what
bq does anyway, such as --keep_going and --noimplicit_deps, are accepted. The status is that of bq; 2 if there is no workspace.
"""
import signal
import sys

if signal.getsignal(signal.SIGINT) is not signal.SIG_IGN:
    signal.signal(signal.SIGINT, signal.SIG_DFL)  # (until there is something to clean up)
import os  # noqa: E402

if not __package__:
    # (called by its path, as the command of the packages is)
    sys.path[0] = os.path.dirname(os.path.dirname(os.path.realpath(__file__)))
if sys.argv[1:2] == ["--complete"]:
    # (before what takes long to be there: a shell waits for it at each tab)
    from bzlq.cli.complete import complete
    sys.exit(complete(sys.argv[2] if len(sys.argv) == 3 else "//"))
from bzlq.cli.subcommands import run, print_help  # noqa: E402


def main():
    """Runs a call of bzlq; gives the status."""
    if sys.argv[1:2] in (["-h"], ["--help"]):
        return print_help()
    return run(sys.argv[1:])


if __name__ == "__main__":
    sys.exit(main())
