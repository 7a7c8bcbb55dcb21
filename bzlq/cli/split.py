"""Cuts a workspace into parts that load by themselves: bzlq facts --split N [-o FOLDER] [--dir DIR | --bundle FILE]

    $ bzlq facts --split 8 -o parts
    parts/part-1.bundle
    parts/part-2.bundle
    ..

Each part has some of the packages, in the order of their paths, and of the others what these depend on: the .bzl files that they load, the BUILD
files below, the schema. `bq --max-steps=100000000 --bundle parts/part-1.bundle --facts`, on any machine, gives its facts, and `bzlq join` joins
those of all parts; a label into another part is F79 until then. Without -o the facts of all parts are written, one part after another.

Without --dir and --bundle it is the workspace that you are in, as bzlq reads it. Status: 0; 3 if a file can't be in a bundle, or targets may be
missing by what bzlq couldn't read, which standard error names; 2 if there is nothing to cut; 4, 5 as for bq.
"""
import os
import subprocess
import sys

from bzlq.bq import ended_by, text_of
from bzlq.cache.folder import cache, room
from bzlq.cli.process import ended, write, write_bytes
from bzlq.cli.request import Asked, parser_of
from bzlq.overlay.assembly import run_options
from bzlq.workspace.bundle import has_header, is_large_at
from bzlq.workspace.files import Refused, content, files, has_content
from bzlq.workspace.parts import cut


def opened(asked):
    """The directory or bundle that is to be cut."""
    if asked.words.dir or asked.words.bundle:
        place = asked.words.dir or asked.words.bundle
        if not os.path.exists(place):
            raise Refused(f"there is no directory or bundle {place}")
        return place
    bundle, asked.warnings = asked.kept.open()
    bundle.close()
    return asked.bundle


def parts_of(asked, left_out):
    """The parts. `left_out` gets the paths of files that can't be in a bundle."""
    place = opened(asked)
    paths = list(files(place))
    left_out += [it for it in paths if has_content(it) and os.path.isdir(place) and has_header(content(place, it))]
    gone = set(left_out)
    return cut((it for it in paths if it not in gone), lambda it: content(place, it), asked.words.split)


def written(parts, folder):
    """Writes the bundles of parts into a folder; gives their paths."""
    os.makedirs(folder, exist_ok=True)
    digits = len(str(len(parts.parts)))
    for at in range(len(parts.parts)):
        path = f"{folder}/part-{at + 1:0{digits}}.bundle"
        with open(f"{path}.new", "wb") as file:
            file.write(parts.bundle(at))
        os.rename(f"{path}.new", path)
        yield path


def facts_of(path, program):
    """The facts of a part, which have its faults; raises what ended the run."""
    words = [program, *run_options(is_large_at(path)), "--bundle", path, "--facts"]
    run = subprocess.run(words, stdin=subprocess.DEVNULL, capture_output=True, check=False)
    if run.returncode not in (0, 3):
        raise ended_by(program, run.returncode, text_of(run.stderr).splitlines(), "--facts")
    return run.stdout


def split(words, name):
    """Writes the parts, or their facts; gives the status."""
    asked, left_out = Asked(words, False), []
    parts = parts_of(asked, left_out)
    if words.folder:
        write(written(parts, words.folder), sys.stdout)
    else:
        with room(cache(), "split-") as folder:
            for path in written(parts, folder):
                write_bytes(facts_of(path, asked.program), sys.stdout)
                os.remove(path)
    if len(parts.parts) < words.split:
        write([f"{name}: {len(parts.parts)} part{'s' * (len(parts.parts) != 1)}, since there are no more packages"], sys.stderr)
    write([f"{name}: {path} is left out: it has a line that begins with `=== `" for path in left_out], sys.stderr)
    write([f"{name}: {line}" for line in asked.told()], sys.stderr)
    return 3 if left_out or asked.may_lack() else 0


def main():
    """Reads the words of a call, and runs it."""
    parser = parser_of(__doc__)
    parser.add_argument("--split", metavar="N", type=int, required=True, help="how many parts")
    parser.add_argument("-o", dest="folder", metavar="FOLDER", default="", help="the folder for the bundles (else the facts are written)")
    words = parser.parse_args()
    return ended(lambda _: split(words, "facts"), "facts")
