"""The overlay and the bundle of a workspace, kept in the cache: takes the root, gives the open bundle and what was said of it.

A folder of its own for each root: `overlay/`, `bundle`, and `state`, which says what they were made of; `readings` and `made` have what files
said, and what a patch has to know (patch.py). A run locks the file `lock` while it looks and while it makes them anew, which it does beside
and then renames; so a run beside it waits, and what it has opened stays whole.
"""
import contextlib
import fcntl
import hashlib
import json
import os
import shutil
import sys
import time

from bzlq.bq import READING
from bzlq.cache.fingerprint import Seen
from bzlq.cache.folder import cache_of, is_at, locked, open_own, own
from bzlq.cache.plain import keep_at, kept_at
from bzlq.overlay.approximations import Place
from bzlq.overlay.arguments import BY_NAMES, DIRECTORY
from bzlq.overlay.assembly import make_bundle, make_overlay, run_options
from bzlq.workspace.bundle import is_large, is_large_at
from bzlq.workspace.files import SCHEMA, Refused
from bzlq.workspace.root import preludes_of

ROOT = os.path.dirname(os.path.dirname(os.path.dirname(os.path.realpath(__file__))))
# the folders of what makes and keeps an overlay
SCRIPTS = ("bzlq/overlay", "bzlq/workspace", "bzlq/cache")
# those of what hints are made by
HINTS = ("bzlq/hints", "bzlq/overlay", "bzlq/cache", "bzlq/facts")
# after how many seconds a folder goes in which nothing was ever made
EMPTY = 24 * 3600


def version(program, scripts=SCRIPTS):
    """What the scripts are that make an overlay, and the program: another version makes it anew."""
    found = hashlib.sha256(sys.version.encode())
    for folder in scripts:
        for name in sorted(os.listdir(f"{ROOT}/{folder}")):
            if name.endswith(".py"):
                entry = os.stat(f"{ROOT}/{folder}/{name}")
                found.update(f"{name} {entry.st_size} {entry.st_mtime_ns}\n".encode())
    with contextlib.suppress(OSError), open(program, "rb") as file:
        found.update(file.read())  # (the same program may lie at several places)
    return found.hexdigest()


class Kept:
    """What is kept of a workspace. `is_large` says of the bundle that was opened whether a run over it wants --large."""

    def __init__(self, root, program):
        self.root, self.program, self.folder = root, program, cache_of(root)
        self.overlay, self.places, self.is_large = os.path.join(self.folder, "overlay"), {}, False

    def open(self, ask=None):
        """The bundle, fresh, and the warnings of what it was made of. `ask` is given an open bundle and queries, and gives their blocks and the run's
        fault lines: it may ask for an answer with them, which counts where `is_asked` is true then."""
        self.is_asked = False
        with locked(self.folder):
            seen = Seen(self.root)
            now = {**seen.print, "root": self.root, "version": version(self.program)}
            before = self.state()
            if {key: before.get(key) for key in now} != now or before.get("bundle") != self.size():
                if not self.is_patched(seen, now, before, ask or self.ask):
                    self.make(seen, now, before)
                before = self.state()
            self.is_large = before["large"]
            return open_own(self.path("bundle"), "rb"), before["warnings"] + before["said"] + preludes_of(self.root)

    def ask(self, bundle, queries):
        """Runs queries over an open bundle; gives their blocks, and the fault lines."""
        ended, blocks = Place(self.program, run_options(self.is_large), bundle).session(queries)
        return blocks, ended.stderr

    def is_patched(self, seen, now, before, ask):
        """Patches the bundle where little has changed; gives whether it did."""
        made = kept_at(self.path("made"), now["version"])
        if not made or any(before.get(key) != it for key, it in (*made["of"].items(), ("bundle", self.size()), ("root", self.root), ("version", now["version"]))):
            return False
        # (not at the top: most runs find nothing changed)
        from bzlq.cache.patch import Patch, TooMuch
        from bzlq.cache.readings import Readings
        readings = Readings(self.root, self.path("readings"), now["version"])
        try:
            patch = Patch(self.root, self.overlay, seen, made, readings, before["warnings"])
            with open_own(self.path("bundle"), "rb") as file:
                bundle = patch.bundle(file.read())
            if bundle is not None and not self.is_right(patch, bundle, ask):
                return False
        except TooMuch:
            return False
        self.commit(patch, bundle is not None, now, before)
        return True

    def is_right(self, patch, bundle, ask):
        """Writes the patched bundle beside, and asks whether all else stays as it is."""
        self.is_large = is_large(bundle)
        shutil.rmtree(self.path("new"), ignore_errors=True)
        os.makedirs(self.path("new"))
        try:
            with open(self.path("new/bundle"), "wb") as file:
                file.write(bundle)
            with open(self.path("new/bundle"), "rb") as file:
                self.is_asked = patch.holds(*ask(file, patch.queries()))
        finally:
            if not self.is_asked:
                shutil.rmtree(self.path("new"), ignore_errors=True)
        return self.is_asked

    def commit(self, patch, is_new, now, before):
        """Has the patch be what is kept. (The state goes first and comes last, as in `make_in`.)"""
        for name in ("state", *(["said"] if is_new else [])):
            with contextlib.suppress(FileNotFoundError):
                os.remove(self.path(name))
        for path, text in patch.laid.items():
            self.lay(path, text)
        if is_new:
            os.rename(self.path("new/bundle"), self.path("bundle"))
            shutil.rmtree(self.path("new"), ignore_errors=True)
        keep_at(self.path("readings"), now["version"], patch.read_now())
        keep_at(self.path("made"), now["version"], {**patch.made, **seen_of(patch.seen)})
        with open_own(self.path("state.new"), "w") as file:
            json.dump({**before, **now, **({"large": self.is_large} if is_new else {}), "bundle": self.size(), "warnings": patch.warnings}, file)
        os.rename(self.path("state.new"), self.path("state"))

    def lay(self, path, text):
        """Writes a copy into the overlay, or removes the one that was there."""
        place = os.path.join(self.overlay, path)
        with contextlib.suppress(FileNotFoundError):
            os.remove(place)
        if text:
            os.makedirs(os.path.dirname(place), exist_ok=True)
            with open(place, "wb") as file:
                file.write(text)

    def size(self):
        """How many bytes the bundle has; nothing where there is none."""
        try:
            return os.lstat(self.path("bundle")).st_size
        except FileNotFoundError:
            return None

    def remove(self):
        """Removes all that is kept, but for the lock."""
        with locked(self.folder):
            for name in os.listdir(self.folder):
                if name != "lock":
                    path = self.path(name)
                    shutil.rmtree(path) if os.path.isdir(path) else os.remove(path)

    def shown(self, path):
        """A file's path from the folder that one stands in; in full for one that is only in the overlay."""
        if path not in self.places:
            place = os.path.join(self.root, path)
            self.places[path] = os.path.relpath(place) if os.path.lexists(place) else os.path.join(self.overlay, path)
        return self.places[path]

    def path(self, name):
        """The path of a file that is kept."""
        return os.path.join(self.folder, name)

    def state(self):
        """What the overlay and the bundle were made of; nothing where there are none."""
        try:
            with open_own(self.path("state"), "r") as file:
                return json.load(file)
        except (OSError, ValueError):
            return {}

    def said(self, key):
        """What was said of this text of a run before; nothing where it wasn't kept. (Most runs have the fault lines of the one before.)"""
        try:
            with open_own(self.path("said"), "r") as file:
                found = json.load(file)
        except (OSError, ValueError):
            return None
        return found["lines"] if found.get("key") == key else None

    def keep_said(self, key, lines):
        """Keeps what was said of a text."""
        with locked(self.folder):
            with contextlib.suppress(FileNotFoundError):
                os.remove(self.path("said.new"))
            with open_own(self.path("said.new"), "w") as file:
                json.dump({"key": key, "lines": lines}, file)
            os.rename(self.path("said.new"), self.path("said"))

    def hints(self, sources, around):
        """The hints of fault lines that are kept, for runs from this folder."""
        from bzlq.cache.kept_hints import KeptHints  # (not at the top: most runs don't need them)
        return KeptHints(self.path("hints"), version(self.program, HINTS), around, sources)

    def keep_hints(self, hints):
        """Keeps the hints of a run."""
        with locked(self.folder):
            hints.keep()

    def make(self, seen, now, before):
        """Makes what changed: the bundle alone, if only names did."""
        new = self.path("new")
        shutil.rmtree(new, ignore_errors=True)
        os.makedirs(new)
        try:
            self.make_in(new, seen, now, before)
        finally:
            shutil.rmtree(new, ignore_errors=True)
        remove_gone(os.path.dirname(self.folder))

    def make_in(self, new, seen, now, before):
        """Makes what changed in a folder of its own, and puts it into its place."""
        made = None
        warnings, said = before.get("warnings", []), []
        is_same = all(before.get(key) == now[key] for key in ("contents", "version")) and os.path.isdir(self.overlay) and not self.depends_on_names()
        if os.path.isfile(os.path.join(self.root, SCHEMA)):
            os.makedirs(f"{new}/overlay")
            warnings = []
            said = make_bundle([self.root], f"{new}/bundle")
        elif is_same:
            shutil.copytree(self.overlay, f"{new}/overlay")
            said = make_bundle([self.root, f"{new}/overlay"], f"{new}/bundle")
        else:
            from bzlq.cache.readings import Readings
            print(f"bzlq: {READING}", file=sys.stderr, flush=True)
            warnings, said, made = make_overlay(self.root, self.program, new, Readings(self.root, self.path("readings"), now["version"]))
        with open(f"{new}/state", "w", encoding="utf-8") as file:
            json.dump({**now, "bundle": os.path.getsize(f"{new}/bundle"), "large": is_large_at(f"{new}/bundle"), "warnings": warnings, "said": said}, file)
        with contextlib.suppress(FileNotFoundError):
            os.remove(self.path("made"))
        if made:
            keep_at(self.path("made"), now["version"], {**made, **seen_of(seen)})
        # (the state goes first and comes last: a run that is ended in between leaves none, and the next one makes all anew)
        for name in ("state", "said"):
            with contextlib.suppress(FileNotFoundError):
                os.remove(self.path(name))
        shutil.rmtree(self.overlay, ignore_errors=True)
        for name in ("overlay", "bundle", "state"):
            os.rename(f"{new}/{name}", self.path(name))

    def depends_on_names(self):
        """Whether the overlay depends on which files there are."""
        try:
            with open(os.path.join(self.overlay, DIRECTORY, "given.bzl"), encoding="utf-8") as file:
                return BY_NAMES in file.readlines(1000)
        except OSError:
            return False


def seen_of(seen):
    """What was seen of the files of which a bundle is made."""
    return {"of": seen.print, "files": seen.files, "names": seen.names, "odd": seen.odd, "links": seen.links}


def remove_gone(cache):
    """Removes what is kept of workspaces that aren't there any more."""
    for name in os.listdir(cache):
        folder = os.path.join(cache, name)
        if len(name) == 16 and is_gone(folder):
            with contextlib.suppress(OSError, Refused), open_own(os.path.join(own(folder), "lock"), "a") as file:
                fcntl.flock(file, fcntl.LOCK_EX | fcntl.LOCK_NB)
                if is_at(file, file.name) and is_gone(folder):
                    shutil.rmtree(folder)


def is_gone(folder):
    """Whether the workspace of a folder of the cache isn't there; or, where nothing says which that is, whether nothing has happened there for long."""
    try:
        with open_own(os.path.join(folder, "state"), "r") as file:
            return not os.path.lexists(json.load(file)["root"])
    except (OSError, ValueError, KeyError, TypeError):
        with contextlib.suppress(OSError):
            return time.time() - os.lstat(folder).st_mtime > EMPTY
        return False
