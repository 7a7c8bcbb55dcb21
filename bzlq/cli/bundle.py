"""Writes the bundle of a workspace, and of folders laid over it: bzlq bundle TREE [OVERLAY ..] | bq QUERY

The files are those that `bq --dir TREE` finds, or those of TREE itself if it is the file of a bundle; if more than one folder has a file
of the same path, the last one is taken. Only BUILD files, .bzl files and the schema are read; of all other files the bundle has the names.
A file with a line that begins with `=== ` can't be in a bundle: it is left out, and named on standard error, which also says where bq
reads the bundle with --large. Only standard output is written to.
"""
import io
import os
import sys

from bzlq.bq import LARGE
from bzlq.cli.process import Output, Unwritten, ended, write
from bzlq.workspace.bundle import is_large, merged, write_bundle
from bzlq.workspace.files import refused


def bundle(folders):
    """Writes the bundle of these folders; gives the status."""
    file = io.BytesIO()
    left_out = write_bundle(merged(folders), file)
    text = file.getvalue()
    try:
        to = Output(sys.stdout)
        to.write(text)
        to.flush()
    except BrokenPipeError:
        os._exit(1)  # the reader has ended, and says why itself
    except OSError as error:
        raise Unwritten(f"standard output: {error.strerror}") from error
    write([f"bundle: {path} is left out: it has a line that begins with `=== `" for path in left_out], sys.stderr)
    write([f"bundle: {LARGE}"] if is_large(text) else [], sys.stderr)
    return 0


def main():
    """Reads the words of a call, and runs it."""
    folders = sys.argv[1:]
    if folders[:1] in (["-h"], ["--help"]):
        print(__doc__.strip())
        return 0
    if folders[:1] == ["--"]:
        del folders[0]
    elif not folders or folders[0].startswith("-"):
        refused("usage: bzlq bundle TREE [OVERLAY ..]")
    return ended(lambda _: bundle(folders), "bundle")
