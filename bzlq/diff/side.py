"""One side of a change: takes the tree of a revision, and makes the bundle of it, with an overlay as bzlq makes one; gives its facts."""
import os
import re

from bzlq.bq import facts
from bzlq.cache.bundle_cache import with_overlay
from bzlq.overlay.assembly import MAX_STEPS, make_bundle
from bzlq.workspace.bundle import is_large_at
from bzlq.workspace.files import ROOT_FILES, SCHEMA, has_content, parts
from bzlq.workspace.root import PRELUDE, preludes

# a line that can't be in a bundle; in a copy too a space stands before it
HEADER = re.compile(rb"^=== ", re.M)
# what is said of a workspace without a WORKSPACE, and is no calls that declare nothing
NO_ROOT = " has no WORKSPACE or MODULE.bazel"

class Side:
    """`overlay` is what lies over the tree's files, by their paths; `warnings` tell of calls that declare nothing over it; `is_large` says whether a
    run over the bundle wants --large."""

    def __init__(self, tree, room, program, overlays):
        self.tree, self.warnings = tree, []
        bundle = f"{room}/bundle"
        os.makedirs(room)
        read = [path for path in tree.reals if has_content(path) or path in ROOT_FILES]
        self.texts = tree.texts(read)
        self.packages = {path for path in tree.reals if os.path.basename(path) in ("BUILD", "BUILD.bazel")}
        with open(bundle, "wb") as file:
            for path in sorted(tree.reals):
                text = HEADER.sub(b" === ", self.texts.get(path, b""))
                file.write(b"=== %s\n%s%s" % (path.encode(), text, b"" if text.endswith(b"\n") or not text else b"\n"))
        if overlays:
            make_bundle([bundle, *overlays], f"{room}/both")
        elif SCHEMA in tree.reals:
            os.rename(bundle, f"{room}/both")
        else:
            said = with_overlay(bundle, program, f"{room}/both")
            self.warnings = [it for it in said if NO_ROOT not in it]
        if PRELUDE in tree.reals:
            self.warnings = [*self.warnings, *preludes(tree.texts([PRELUDE])[PRELUDE])]
        laid = parts(f"{room}/both")
        self.overlay = {path: text for path, text in laid.items() if text.rstrip(b"\n") != HEADER.sub(b" === ", self.texts.get(path, b"")).rstrip(b"\n")}
        self.is_large = is_large_at(f"{room}/both")
        with open(f"{room}/both", "rb") as given:
            self.facts = facts(given, program=program, max_steps=MAX_STEPS, large=self.is_large)
