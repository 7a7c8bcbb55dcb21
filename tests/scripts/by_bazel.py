"""What Bazel says of changes, for tests/scripts/real --changes --bazel: which targets differ between two revisions, and what depends on them, by the
XML of its own query `//...:*` alone. It runs in a copy with an empty WORKSPACE, without a network; what Debian has of the rules that
BUILD files load stands for their repositories. Where it refuses a revision, it says nothing of a change to it or from it."""
import os
import subprocess

from bzlq.diff.by_bazel import concerned, targets_of
from histories import GIT, bytes_at


class Bazel:
    """A server for one repository."""

    def __init__(self, folder, room, repositories):
        self.folder, self.tree, self.before = folder, f"{room}/bazel/{os.path.basename(folder)}", None
        settings = [f"--output_user_root={room}/bazel/root", f"--output_base={room}/bazel/base-{os.path.basename(folder)}"]
        self.command = ["bazel", *settings, "--nohome_rc", "--noworkspace_rc", "--max_idle_secs=600"]
        self.words = ["--noshow_progress", "--output=xml", *(f"--override_repository={name}={path}" for name, path in repositories.items())]
        subprocess.run(["rm", "-rf", self.tree], check=True)
        self.git("clone", "-q", "--shared", "--no-checkout", folder, self.tree, at=room)

    def git(self, *words, at=""):
        """Runs git."""
        subprocess.run([*GIT, *words], cwd=at or self.tree, capture_output=True, check=True)

    def stop(self):
        """Ends the server."""
        subprocess.run([*self.command, "shutdown"], cwd=self.tree, capture_output=True, check=False)

    def targets(self):
        """What the last commit declares, by label: the text and the content of each target, and the labels that it names. None where Bazel refuses it."""
        self.git("fetch", "-q", "origin")
        self.git("checkout", "-q", "--force", "FETCH_HEAD")
        self.git("clean", "-fdqx")
        for name in (".bazelversion", "WORKSPACE.bazel", "WORKSPACE"):
            if os.path.lexists(f"{self.tree}/{name}"):
                os.remove(f"{self.tree}/{name}")
        with open(f"{self.tree}/WORKSPACE", "w", encoding="ascii"):
            pass
        ended = subprocess.run([*self.command, "query", *self.words, "//...:*"], cwd=self.tree, capture_output=True, check=False)
        if ended.returncode:
            return None
        return targets_of(ended.stdout, lambda path: bytes_at(self.tree, path))

    def concerned(self):
        """The rules and source files that the last commit concerns; None where Bazel can't say."""
        before, self.before = self.before, self.targets()
        if before is None or self.before is None:
            return None
        return concerned(before, self.before)
