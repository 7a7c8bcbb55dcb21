"""Tries patches (bzlq/cache/patch.py): after each change of a workspace what is kept has to be what is made from nothing.

A case is a change, and whether a patch is enough for it. After it the bundle, the overlay and the warnings are compared with those of a cache in
which nothing was kept; and that a patch was, or wasn't, enough, by the line that says that the workspace is read.
"""
import contextlib
import io
import os
import shutil
import subprocess
import sys

from bench import ROOT
from bzlq.cache.folder import cache_of
from bzlq.cache.store import Kept

READING = "bzlq: reading the workspace"
MACROS = 'def both(name, srcs = []):\n    native.filegroup(name = name, srcs = srcs)\n    native.filegroup(name = name + "_2", srcs = [name])\n'
FILES = {
    "WORKSPACE": 'workspace(name = "w")\n',
    "tools/BUILD": "",
    "tools/defs.bzl": MACROS,
    "a/BUILD": '# a\nload("//tools:defs.bzl", "both")\nboth(name = "a", srcs = glob(["*.txt"]))\nfilegroup(name = "b", srcs = [":a"])\n',
    "a/x.txt": "",
    "b/BUILD": 'load("@r//:m.bzl", "release")\nrelease(name = "rel", srcs = ["//a"])\nfilegroup(name = "user", srcs = ["//c:rel-and-hashes", "@r//:lib"])\n',
    "c/BUILD": 'load("@r//:m.bzl", "release")\nrelease(name = "rel", srcs = ["//a"])\n',
    "t/BUILD": '[sh_test(name = n, srcs = ["t.sh"]) for n in ["one", "two"]]\ntest_suite(name = "all_tests")\n',
    "t/t.sh": "",
    "s/BUILD": 'cc_library(name = "s", srcs = select({"//a:b": ["s.c"], "//conditions:default": []}), copts = ["-x"])\n',
    "s/s.c": "",
}


def write(path, text):
    """Has a change write a file."""
    return lambda room: put(room, path, text)


def put(room, path, text):
    """Writes a file."""
    os.makedirs(os.path.dirname(f"{room}/{path}") or room, exist_ok=True)
    with open(f"{room}/{path}", "w", encoding="utf-8") as file:
        file.write(text)


def edit(path, before, after):
    """A change that puts a text in the place of another in a file."""
    def change(room):
        with open(f"{room}/{path}", encoding="utf-8") as file:
            text = file.read()
        assert before in text, (path, before)
        put(room, path, text.replace(before, after))
    return change


def remove(path):
    """A change that removes a file."""
    return lambda room: os.remove(f"{room}/{path}")


def rename(path, to):
    """A change that renames a file."""
    return lambda room: os.rename(f"{room}/{path}", f"{room}/{to}")


def touch(path):
    """A change of a file's time alone."""
    return lambda room: os.utime(f"{room}/{path}")


def cut(name):
    """Has a file of the cache be half as long, as a write that was interrupted leaves it."""
    def change(room):
        place = cache_of(room)
        os.truncate(f"{place}/{name}", os.path.getsize(f"{place}/{name}") // 2)
        put(room, "a/BUILD", FILES["a/BUILD"])
    return change


# what changes, and whether a patch is enough
CHANGES = [
    ("a comment", edit("a/BUILD", "# a\n", "# a\n# more\n"), True),
    ("a dependency of the same kind", edit("a/BUILD", 'srcs = [":a"]', 'srcs = [":a", "//c:rel"]'), True),
    ("a dependency on nothing", edit("a/BUILD", '"//c:rel"', '"//c:none"'), False),
    ("another one on nothing", edit("a/BUILD", '"//c:none"', '"//c:none_2"'), False),
    ("a dependency that is there again", edit("a/BUILD", '"//c:none_2"', '"//c:rel"'), False),
    ("a target", edit("a/BUILD", "# more\n", 'filegroup(name = "new")\n'), True),
    ("another name", edit("a/BUILD", '"new"', '"newer"'), True),
    ("a file below a glob", write("a/y.txt", ""), True),
    ("another name of a file", rename("a/y.txt", "a/z.txt"), True),
    ("a file that no glob has", write("a/y.c", ""), True),
    ("a file in a folder of its own", write("a/in/y.txt", ""), True),
    ("a file that goes", remove("a/z.txt"), True),
    ("the last file below a glob", remove("a/x.txt"), True),
    ("a file that comes back", write("a/x.txt", ""), True),
    ("a package below a glob", write("a/in/BUILD", 'filegroup(name = "in")\n'), False),
    ("a package that goes", remove("a/in/BUILD"), False),
    ("another name of a BUILD file", rename("a/BUILD", "a/BUILD.bazel"), False),
    ("a BUILD file beside it", write("a/BUILD", "fail()\n"), False),
    ("a BUILD file that hides nothing more", remove("a/BUILD"), False),
    ("a BUILD file by its first name", rename("a/BUILD.bazel", "a/BUILD"), False),
    ("a macro", edit("tools/defs.bzl", '"_2"', '"_3"'), False),
    ("a touched BUILD file", touch("a/BUILD"), True),
    ("a touched .bzl file", touch("tools/defs.bzl"), None),
    ("a label that a macro may make", edit("b/BUILD", "rel-and-hashes", "rel-and-sums"), False),
    ("a second one", edit("a/BUILD", '"//c:rel"', '"//c:rel-and-more"'), False),
    ("none of them by a", edit("a/BUILD", '"//c:rel-and-more"', '"//c:rel"'), False),
    ("a file of such a name", write("c/rel-and-sums", ""), False),
    ("its end", remove("c/rel-and-sums"), False),
    ("a label of another repository", edit("b/BUILD", '"@r//:lib"', '"@r//:lib2"'), True),
    ("another test of a package with a suite", edit("t/BUILD", '"two"', '"three"'), False),
    ("tests in another order", edit("t/BUILD", '["one", "three"]', '["three", "one"]'), True),
    ("a condition of a select", edit("s/BUILD", '"//a:b": ["s.c"]', '"//a:a": ["s.c", "t.c"]'), True),
    ("a select that goes", edit("s/BUILD", 'select({"//a:a": ["s.c", "t.c"], "//conditions:default": []})', '["s.c"]'), False),
    ("a fault", edit("s/BUILD", '["-x"]', "[-1]"), False),
    ("no fault", edit("s/BUILD", "[-1]", '["-x"]'), False),
    ("a wrong statement", edit("s/BUILD", "cc_library(", "cc_library(("), False),
    ("a right one", edit("s/BUILD", "cc_library((", "cc_library("), False),
    ("a line like a bundle's header", edit("a/BUILD", "# a\n", '"""\n=== a\n"""\n'), True),
    ("none", edit("a/BUILD", '"""\n=== a\n"""\n', "# a\n"), True),
    ("a name that isn't ASCII", write("a/ü.txt", ""), False),
    ("its end again", remove("a/ü.txt"), False),
    ("a value that isn't there", edit("a/BUILD", "# a\n", 'load("@r//:m.bzl", "MORE")\nfilegroup(name = "of", srcs = MORE)\n'), None),
    ("it is given to a macro", edit("a/BUILD", 'glob(["*.txt"])', "MORE"), None),
    ("a loop over it", edit("a/BUILD", 'filegroup(name = "of"', '[filegroup(name = it) for it in MORE]\nfilegroup(name = "of"'), None),
    ("lines before it", edit("a/BUILD", 'load("@r', '# a\nload("@r'), None),
    ("the macro is given another one", edit("a/BUILD", 'name = "a", srcs = MORE', 'name = "a", srcs = glob(["*.txt"])'), None),
    ("no loop", edit("a/BUILD", "[filegroup(name = it) for it in MORE]\n", ""), None),
    ("no such value", edit("a/BUILD", 'load("@r//:m.bzl", "MORE")\nfilegroup(name = "of", srcs = MORE)\n', ""), None),
    ("a link to a file", lambda room: os.symlink("x.txt", f"{room}/a/l.txt"), False),
    ("a link to the folder that it is in", lambda room: os.symlink("../a", f"{room}/a/around"), True),
    ("a link to a folder", lambda room: os.symlink("../a/in", f"{room}/b/linked"), False),
    ("a file behind a link", write("a/in/q.txt", ""), True),
    ("a folder that goes, and leaves a link", lambda room: shutil.rmtree(f"{room}/a/in"), False),
    ("what was kept of files, cut", cut("readings"), False),
    ("what a patch has to know, cut", cut("made"), False),
    ("the state, cut", cut("state"), False),
    ("the bundle, cut", cut("bundle"), False),
]


def files_in(folder):
    """The bytes of all files in a folder, by their paths."""
    found = {}
    for at, _, names in os.walk(folder):
        for name in names:
            with open(f"{at}/{name}", "rb") as file:
                found[os.path.relpath(f"{at}/{name}", folder)] = file.read()
    return found


def state(bench, folder):
    """What is kept in a cache, made fresh, and what was written meanwhile. (It is asked for in this process: there are many.)"""
    before = os.environ.get("XDG_CACHE_HOME", "")
    os.environ["XDG_CACHE_HOME"], written = f"{bench.room}/{folder}", io.StringIO()
    try:
        with contextlib.redirect_stderr(written):
            kept = Kept(f"{bench.room}/patches", bench.program)
            bundle, warnings = kept.open()
        with bundle:
            return bundle.read(), warnings, files_in(kept.overlay), written.getvalue()
    finally:
        os.environ["XDG_CACHE_HOME"] = before


def check(bench):
    """Tries each change."""
    bench.lay_out("patches", FILES)
    state(bench, "cache")
    for what, change, is_patched in CHANGES:
        before, os.environ["XDG_CACHE_HOME"] = os.environ.get("XDG_CACHE_HOME", ""), f"{bench.room}/cache"
        change(f"{bench.room}/patches")
        os.environ["XDG_CACHE_HOME"] = before
        *found, said = state(bench, "cache")
        *wanted, _ = state(bench, "anew")
        shutil.rmtree(f"{bench.room}/anew")
        parts = [name for name, it, other in zip(("bundle", "warnings", "overlay"), found, wanted) if it != other]
        bench.compare(f"patches: {what}", (parts, is_patched if is_patched is None else READING not in said), ([], is_patched))
    in_a_tick(bench)
    programs(bench)


TICK = """
import os, sys
sys.path.insert(0, "ROOT")
from bzlq.cache import fingerprint, store, patch, readings
def coarse(place, since, of=fingerprint.entry_of):
    found = of(place, since)
    return found[:1] + (found[1] // 10**12, 0, 0, 0) + found[5:] if found else found
for module in (fingerprint, patch, readings):
    module.entry_of = coarse
def name():
    opened, _ = store.Kept(os.getcwd(), PROGRAM).open()
    with opened:
        return [it for it in opened.read().decode().split("\\n") if "name" in it]
for text in ("one", "two", "six"):
    with open("BUILD", "w") as file:
        file.write(f'filegroup(name = "{text}")\\n')
    print(*name())
os.utime("BUILD", (1e9, 1e9))
name()
print(*name())
"""


def in_a_tick(bench):
    """Edits of the same size between which no clock goes on, and the file keeps its number."""
    bench.lay_out("tick", {"WORKSPACE": "", "BUILD": ""})
    script = TICK.replace("ROOT", ROOT).replace("PROGRAM", repr(bench.program))
    ended = subprocess.run([sys.executable, "-c", script], cwd=f"{bench.room}/tick", env=bench.environment, capture_output=True, text=True, check=False)
    wanted = "".join(f'filegroup(name = "{it}")\n' for it in ("one", "two", "six", "six"))
    bench.compare("patches: edits within a tick", (ended.stdout, ended.stderr.replace(READING + "\n", "")), (wanted, ""))


def programs(bench):
    """Another program, or another text of the scripts, makes all anew."""
    put(f"{bench.room}/patches", "a/BUILD", FILES["a/BUILD"] + "# for programs\n")
    state(bench, "cache")
    shutil.copy(bench.program, f"{bench.room}/other")
    with open(f"{bench.room}/other", "ab") as program:
        program.write(b"\n")
    errors = bench.run("bzlq --program ../other //a:all", "patches")[1]
    bench.compare("patches: another program", READING in errors, True)
