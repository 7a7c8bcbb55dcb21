"""The labels of all targets of a workspace, kept for those who complete words: takes what is kept of the workspace, and the open bundle.

They come with the first answer after a change, in the same session, and are those of the last answer until the next one.
"""
import contextlib
import os

from bzlq.cache.folder import locked, open_own
from bzlq.workspace.files import Refused

ALL = "//...:*"


class Labels:
    """The labels of a bundle."""

    def __init__(self, kept, bundle):
        found = os.fstat(bundle.fileno())
        self.kept, self.first = kept, f"bundle {found.st_size} {found.st_mtime_ns} {found.st_ino}\n".encode()

    def wanted(self):
        """The queries whose answers are to be kept: none where those of this bundle are."""
        try:
            with open_own(self.kept.path("labels"), "rb") as file:
                return () if file.readline(200) == self.first else (ALL,)
        except OSError:
            return (ALL,)

    def keep(self, blocks):
        """Keeps the answers, whose lines may have kinds before the labels."""
        for lines in blocks:
            with contextlib.suppress(OSError), locked(self.kept.folder):
                with contextlib.suppress(FileNotFoundError):
                    os.remove(self.kept.path("labels.new"))
                with open_own(self.kept.path("labels.new"), "wb") as file:
                    file.write(self.first + b"".join(it[it.find(b"//"):] for it in lines))
                os.rename(self.kept.path("labels.new"), self.kept.path("labels"))


def kept_labels(folder):
    """The labels, each on a line; nothing where they weren't kept."""
    try:
        with open_own(os.path.join(folder, "labels"), "rb") as file:
            return file.read()
    except (OSError, Refused):
        return b""
