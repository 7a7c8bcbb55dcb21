"""A process of bq that follows files: takes one bundle after another, with files over it if need be, puts what differs from the files before, and
gives facts and answers of the last ones. So files that differ in little are loaded in about the time that the difference takes."""
import os

from bzlq.bq import ProcessError, Workspace
from bzlq.overlay.assembly import MAX_STEPS
from bzlq.workspace.files import parts

# how many files are put at most; where more differ, it is quicker to load them anew
MOST = 1000


class Loaded:
    """`workspace` is the process, and `files` are those that it has been given, with their bytes; `is_behind` says whether these were refused, so that
    it answers over the ones before. The options are those of `Workspace`; a bundle may always be a large one, which changes nothing for others."""

    def __init__(self, program, **options):
        self.program, self.options = program, {"max_steps": MAX_STEPS, **options, "large": True}
        self.workspace, self.files, self.is_behind = None, {}, False

    def __enter__(self):
        return self

    def __exit__(self, *_):
        self.close()

    def close(self):
        """Ends the process, if there is one."""
        if self.workspace:
            self.workspace.close()
        self.workspace = None

    def take(self, bundle, over=None):
        """Has the process be one of a bundle, by its path, with the bytes of some files in place of those that it has."""
        files = parts(bundle)
        wanted = {**files, **over} if over else files
        if self.workspace and len(differing(self.files, wanted)) <= MOST:
            try:
                self.follow(wanted)
                return
            except ProcessError:
                pass  # (it has ended, and may have before: another one loads these files, or says why it can't)
        self.close()
        self.workspace = Workspace(bundle, program=self.program, **self.options)
        self.files, self.is_behind = files, False
        self.follow(wanted)

    def follow(self, wanted):
        """Puts and removes what differs, if anything does, and loads it."""
        edits = differing(self.files, wanted)
        if not edits and not self.is_behind:
            return
        self.workspace.edit(edits)
        self.files, self.is_behind = wanted, True
        self.workspace.reload()
        self.is_behind = False

    def facts(self):
        """The facts of all these files."""
        return self.workspace.facts(as_loaded=True)

    def targets(self, query):
        """The facts of a query's targets."""
        return self.workspace.facts(query, as_loaded=True).targets.values()


def differing(before, after):
    """The files that are others after, and those that are gone, without bytes."""
    return {path: text for path, text in after.items() if before.get(path) != text} | {path: None for path in before if path not in after}


def path_of(file):
    """A path of an open file for processes beside this one, which is right whatever becomes of its name."""
    return f"/proc/{os.getpid()}/fd/{file.fileno()}"
