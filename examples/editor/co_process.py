#!/usr/bin/env python3
"""Answers an editor, over the files of a workspace with the buffers that aren't saved: examples/editor/co_process.py [FOLDER]

Each line of standard input is a request, an object of JSON, and is answered by a line with the same `id`:

    {"id": 1, "do": "open", "path": "app/BUILD", "text": "..."}    {"id": 1}
    {"id": 2, "do": "change", "path": "app/BUILD", "text": "..."}  {"id": 2}
    {"id": 3, "do": "faults"}                                      {"id": 3, "faults": [..], "notes": [..]}
    {"id": 4, "do": "query", "query": "deps(//app)"}               {"id": 4, "answer": [..], "faults": [..], "notes": [..]}
    {"id": 5, "do": "saved"}                                       {"id": 5}
    {"id": 6, "do": "close", "path": "app/BUILD"}                  {"id": 6}

A request that is refused is answered by {"id": .., "error": ".."}. Paths are those from the workspace's root on, which is looked for from FOLDER
upwards, or absolute. Status: 0 at the end of the input; 130 after Ctrl-C; 2 if there is no workspace, or no program bq.
"""
import json
import os
import sys

sys.path.insert(0, f"{os.path.dirname(os.path.realpath(__file__))}/../..")
from bzlq.bq import FAULT, BqError, ProcessError, program_of, with_overlay  # noqa: E402
from bzlq.facts.loaded import Loaded, path_of  # noqa: E402
from bzlq.overlay.approximations import Queries  # noqa: E402
from bzlq.workspace.files import SCHEMA, Refused, has_content, is_path, parts, read_file  # noqa: E402
from bzlq.workspace.root import root_of  # noqa: E402


class Editor:
    """A workspace with the buffers of an editor: `buffers` has their bytes by their paths, and `bundle` is the path of that of the files on the disk,
    over which bzlq lays what stands for other repositories. `warnings` say of which calls it can't read what they declare."""

    def __init__(self, folder):
        self.root, self.loaded = root_of(os.path.abspath(folder)), Loaded(program_of())
        self.buffers, self.bundle, self.warnings = {}, "", []

    def answer(self, request):
        """What a request is answered by, but for its `id`."""
        match request:
            case {"do": "open" | "change", "path": str(path), "text": str(text)}:
                place = self.place(path)
                # (of files that bq doesn't read only the names count)
                self.buffers[place] = text.encode("utf-8", "surrogateescape") if has_content(place) else b""
                return {}
            case {"do": "close", "path": str(path)}:
                self.buffers.pop(self.place(path), None)
                return {}
            case {"do": "saved"}:
                self.bundle = ""
                return {}
            case {"do": "faults"}:
                return self.told()
            case {"do": "query", "query": str(query)}:
                return self.asked(query, self.told())
        raise Refused("no such request: it has to be one of open, change, close, saved, faults and query, with what it needs")

    def place(self, path):
        """A path from the root on."""
        full = os.path.join(self.root, path)
        if not full.startswith(f"{self.root}/"):
            # (by another way, which may have links)
            full = os.path.join(os.path.realpath(os.path.dirname(full)), os.path.basename(full))
        found = os.path.relpath(full, self.root)
        if not is_path(found):
            raise Refused(f"{path} is no file of the workspace")
        return found

    def told(self):
        """Has bq load what it hasn't, and gives the faults, and what there is to say beside them."""
        if not self.bundle:
            self.bundle, _, self.warnings = with_overlay(self.root, self.loaded.program)
        with open(self.bundle, "rb") as bundle:
            self.loaded.take(path_of(bundle), self.buffers)
            saved = parts(path_of(bundle))
        return {"faults": [fault_of(it) for it in self.loaded.workspace.faults], "notes": [*self.warnings, *self.notes(saved)]}

    def asked(self, query, told):
        """The answer to a query, with what the overlay has made up or left out of it."""
        queries = Queries(query, self.bundle)
        answer = self.loaded.workspace.query(queries.query)
        lost = queries.lost([len(answer), *(len(self.loaded.workspace.query(it)) for it in queries.all[1:])], self.loaded.targets)
        return {"answer": answer, "faults": told["faults"], "notes": [*told["notes"], *lost.lines()]}

    def notes(self, saved):
        """What may be wrong with buffers over an overlay, which is made of the files on the disk."""
        if os.path.exists(f"{self.root}/{SCHEMA}"):
            return
        read = sorted(path for path in self.buffers if has_content(path))
        if new := [path for path in read if self.buffers[path].rstrip(b"\n") != self.on_disk(path)]:
            yield f"not saved: {', '.join(new)}; the rules and what stands for other repositories are those of the saved files"
        if changed := [path for path in read if path in saved and saved[path].rstrip(b"\n") != self.on_disk(path)]:
            yield f"may have faults for what the overlay leaves out of the saved files: {', '.join(changed)}"

    def on_disk(self, path):
        """The bytes of a file on the disk, but for newlines at the end; none where it can't be read."""
        try:
            return read_file(self.root, path).rstrip(b"\n")
        except OSError:
            return b""


def fault_of(line):
    """A fault line as an object."""
    found = FAULT.fullmatch(line)
    repository, _, path = found["label"].partition("//")
    place = path.replace(":", "/").lstrip("/")
    return {"file": f"external/{repository[1:]}/{place}" if repository[1:] else place, "line": int(found["line"]),
            "number": found["number"], "name": found["name"], "detail": found["detail"]}


def answered(editor, line):
    """The answer to a line."""
    identity = None
    try:
        request = json.loads(line)
        identity = request.get("id") if isinstance(request, dict) else None
        return {"id": identity, **editor.answer(request)}
    except (BqError, Refused, OSError, ValueError, RecursionError) as error:
        if isinstance(error, ProcessError):
            editor.loaded.close()  # (the next request starts another process)
        return {"id": identity, "error": f"{error}"}


def main():
    """Answers the lines of standard input; gives the status."""
    try:
        editor = Editor(sys.argv[1] if sys.argv[1:] else ".")
    except (BqError, Refused) as error:
        print(error, file=sys.stderr)
        return 2
    try:
        for line in sys.stdin.buffer:
            print(json.dumps(answered(editor, line)), flush=True)
    except KeyboardInterrupt:
        return 130
    finally:
        editor.loaded.close()
    return 0


if __name__ == "__main__":
    sys.exit(main())
