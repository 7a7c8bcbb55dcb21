"""Revisions of a git repository, without a checkout: takes a folder of it and the name of a revision, gives a `Tree` of the files in that folder.

What isn't committed is a tree too: it is put into an index and a folder of objects of their own, so that the repository stays as it is. Of
files that .gitignore names, those that git doesn't have are in no tree.
"""
import os
import shutil
import subprocess
from collections import defaultdict

from bzlq.workspace.files import SCHEMA, Refused, Unreadable, has_content, ignored_in, is_left_out, unreadable

LINK, MODULE = "120000", "160000"
# how many links may lead on to one another
MOST_LINKS = 40
WORK_TREE = ""
NOWHERE = "a link that leads out of the workspace, or to nothing"


class NoRevision(Refused):
    """There is no such revision, or no repository; the message says so."""


class Git:
    """The repository around a folder."""

    def __init__(self, folder, room):
        self.folder, self.room = folder, room
        self.environment = {**os.environ, "LC_ALL": "C", "GIT_OPTIONAL_LOCKS": "0"}
        if not os.path.isdir(folder):
            raise NoRevision(f"there is no directory {folder}")
        self.prefix = self.text("rev-parse", "--show-prefix")

    def run(self, *words, given=b"", **environment):
        """What git writes."""
        try:
            ended = subprocess.run(["git", *words], cwd=self.folder, env={**self.environment, **environment}, input=given, capture_output=True,
                                   check=False)
        except OSError as error:
            raise NoRevision(f"git can't be run: {error.strerror}") from None
        if ended.returncode:
            said = ended.stderr.decode("utf-8", "surrogateescape").strip().splitlines()
            raise NoRevision(next((it.partition(": ")[2] for it in said if it.startswith(("fatal: ", "error: "))), f"git {words[0]} has failed"))
        return ended.stdout

    def text(self, *words, **environment):
        """The line that git writes."""
        return self.run(*words, **environment).decode("utf-8", "surrogateescape").removesuffix("\n")

    def commit(self, revision):
        """The commit that a revision names."""
        try:
            if not revision.startswith("-"):
                return self.text("rev-parse", "--verify", "--quiet", f"{revision}^{{commit}}")
        except NoRevision:
            pass
        raise NoRevision(f"there is no revision {revision}")

    def commits(self, revision, count):
        """The last commits of a branch, the oldest first, each with its subject: of merges the side that they were merged into."""
        found = self.run("log", "--first-parent", f"--max-count={count}", "--reverse", "--format=%H %s", self.commit(revision))
        return [tuple(line.split(" ", 1)) for line in found.decode("utf-8", "surrogateescape").splitlines()]

    def directory(self):
        """The folder of the repository itself."""
        return self.text("rev-parse", "--absolute-git-dir")

    def file(self, revision, path):
        """The bytes of a file of a revision, or of the work tree, by its path from the repository's root."""
        if revision != WORK_TREE:
            return self.run("cat-file", "blob", f"{self.commit(revision)}:{path}")
        with open(os.path.join(self.folder, self.text("rev-parse", "--show-cdup"), path), "rb") as file:
            return file.read()

    def base(self):
        """The last commit that this work has in common with the branch that is everyone's."""
        try:
            return self.text("merge-base", "origin/HEAD", "HEAD")
        except NoRevision:
            there = self.text("for-each-ref", "--format=%(refname:short)", "--count=4", "--sort=-creatordate", "refs/heads", "refs/remotes", "refs/tags").split("\n")
            known = f" ({', '.join(it for it in there if it)} are there)" if there[1:] else ""
            raise NoRevision(f"there is no origin/HEAD to compare with: name a revision, as `affected HEAD`{known}") from None

    def tree(self, revision):
        """The tree of a revision, or of what lies in the folder."""
        whole = self.kept() if revision == WORK_TREE else f"{self.commit(revision)}^{{tree}}"
        if self.prefix:
            whole = f"{whole.removesuffix('^{tree}')}:{self.prefix.rstrip('/')}"
        try:
            return Tree(self, self.text("rev-parse", "--verify", "--quiet", whole))
        except NoRevision:
            return Tree(self, "")  # (the folder wasn't there yet)

    def kept(self):
        """The tree of all files as they lie there, whether or not they are committed."""
        index, objects = (os.path.abspath(os.path.join(self.folder, self.text("rev-parse", "--git-path", name))) for name in ("index", "objects"))
        if os.path.exists(index):
            # (with its time, by which git knows what may have changed since it was written)
            shutil.copy2(index, f"{self.room}/index")
        os.makedirs(f"{self.room}/objects", exist_ok=True)
        others = os.environ.get("GIT_ALTERNATE_OBJECT_DIRECTORIES", "")
        self.environment |= {"GIT_OBJECT_DIRECTORY": f"{self.room}/objects", "GIT_ALTERNATE_OBJECT_DIRECTORIES": f"{objects}:{others}".rstrip(":")}
        self.run("add", "--all", "--", ".", GIT_INDEX_FILE=f"{self.room}/index")
        return self.text("write-tree", GIT_INDEX_FILE=f"{self.room}/index")

    def contents(self, names):
        """The contents of objects, by their names."""
        names = sorted(set(names))
        text = self.run("cat-file", "--batch", given="".join(f"{name}\n" for name in names).encode()) if names else b""
        found, at = {}, 0
        for name in names:
            end = text.index(b"\n", at)
            if text[at:end].endswith(b" missing"):
                raise NoRevision(f"the repository lacks the object {name}")
            size = int(text[at:end].rpartition(b" ")[2])
            found[name] = text[end + 1:end + 1 + size]
            at = end + size + 2
        return found


class Tree:
    """The files of a folder in a revision, with links followed as `bq --dir` follows them, but only to what is in the folder itself: one that
    leads out of it counts as a file, of which nothing is known but where it leads."""

    def __init__(self, git, name):
        self.git, self.entries, self.inside = git, {}, defaultdict(list)
        listed = git.run("ls-tree", "-r", "-t", "-z", "--full-tree", name) if name else b""
        for line in listed.decode("utf-8", "surrogateescape").split("\0")[:-1]:
            head, _, path = line.partition("\t")
            mode, _, kept = head.split(" ")
            self.entries[path] = (mode, kept)
            directory, _, last = path.rpartition("/")
            self.inside[directory].append(last)
        links = {path: kept for path, (mode, kept) in self.entries.items() if mode == LINK}
        texts = git.contents(links.values())
        self.links = {path: texts[kept].decode("utf-8", "surrogateescape") for path, kept in links.items()}
        self.reals = self.found()

    def real(self, path):
        """Where a path leads: to an entry, which is a link if that leads out of the folder; nothing where it leads in a circle, or to nothing."""
        done, left, count, link = [], path.split("/")[::-1], 0, None
        while left:
            part = left.pop()
            if part in ("", "."):
                continue
            if part == "..":
                if not done:
                    return link
                done.pop()
                continue
            at = "/".join([*done, part])
            if at not in self.links:
                done.append(part)
                continue
            count, link = count + 1, at
            if self.links[at].startswith("/"):
                return link
            if count > MOST_LINKS:
                return None
            left += self.links[at].split("/")[::-1]
        found = "/".join(done)
        return found if not found or found in self.entries else None

    def found(self):
        """The paths of the files, each with the one where its links lead."""
        found, pending = {}, [("", "", ("",))]
        entry = self.entries.get(".bazelignore", ("", ""))
        without = ignored_in(self.git.contents([entry[1]])[entry[1]]) if entry[0].startswith("100") else set()
        while pending:
            directory, place, around = pending.pop()
            for name in sorted(self.inside[place]):
                path, at = (f"{directory}/{name}" if directory else name), f"{place}/{name}" if place else name
                if is_left_out(path, name, lambda: at in self.links):
                    continue
                real = self.real(at) if at in self.links else at
                mode = "" if real is None else self.entries[real][0] if real else "040000"
                if path == SCHEMA and mode in ("", LINK):
                    raise Unreadable(f"{path}: {NOWHERE}")
                if has_content(path) and mode in ("", LINK):
                    found[path] = at
                if mode == "040000" and path not in without and real not in around:
                    pending.append((path, real, (*around, real)))
                if mode.startswith("100") or mode == LINK:
                    found[path] = real
        return found

    def texts(self, paths):
        """The bytes of files."""
        links = {path for path in paths if self.entries[self.reals[path]][0] == LINK}
        names = {path: self.entries[self.reals[path]][1] for path in paths if path not in links}
        found = self.git.contents(names.values())
        return {path: unreadable(path, NOWHERE) if path in links else found[names[path]] for path in paths}

    def identity(self, path, seen=()):
        """What a file or folder holds: equal where it is the same in two trees. None where there is nothing."""
        real = self.real(path)
        if real in self.entries:
            below = [it for it in self.links if it.startswith(f"{real}/")] if self.entries[real][0] == "040000" else []
            return (self.entries[real], *(self.identity(it, (*seen, real)) for it in below if real not in seen))
        while path and path not in self.entries:
            path = path.rpartition("/")[0]
        return self.entries[path] if path and self.entries[path][0] in (LINK, MODULE) else None
