"""Where the global names of files lead, through loads and other names: takes the files of a workspace, gives what a name stands for.

A name leads to one other at most, so all names together are ways that run into one another, and each is gone once, however many there are and
however long: what a way ends with is noted for all names on it.
"""
from collections import defaultdict

# what a name stands for that leads back to itself, and any other that a file binds to a value
VALUE = ("value",)


class GlobalNames:
    """`stand_ins` has, by the paths of files, the names that something else stands for: `add` adds to it."""

    def __init__(self, workspace):
        self.workspace, self.stand_ins = workspace, defaultdict(set)
        self.clauses = {}  # by the path, each name that a file loads, with the label and the symbol there
        self.after = {}  # by (path, name), where it leads: to the next of these, or to nothing
        self.before = defaultdict(list)
        self.ends = {}  # what each of them ends with, if nothing stands for one on its way
        self.led = set()  # those that lead to a name that something stands for
        self.known = {}  # what these stand for, until another one is added

    def clause(self, file, name):
        """The label and the symbol by which a file loads a name; nothing for a name that it doesn't load."""
        if file.path not in self.clauses:
            found = self.clauses[file.path] = {}
            for label, _, clauses in file.loads:
                for local, symbol in clauses.items():
                    found.setdefault(local, (label, symbol))
        return self.clauses[file.path].get(name)

    def step(self, path, name):
        """The name that one leads to, and what it ends with where it leads to none."""
        file = self.workspace.files[path]
        if name in file.natives:
            return None, ("rule", file.natives[name])
        if name in file.macros:
            return (path, file.macros[name][0]), None
        if name in file.aliases:
            return (path, file.aliases[name]), None
        if name in file.defs:
            return None, ("def", path, name)
        if clause := self.clause(file, name):
            loaded, place = self.workspace.resolve(clause[0], path)
            return ((loaded, clause[1]), None) if loaded in self.workspace.files else (None, ("stub", place, clause[1]))
        return None, VALUE if name in file.globals else None

    def may_stand(self, path, name):
        """Whether something can stand for a name: not for a rule of Bazel's, nor for a symbolic macro, which leads on to its function."""
        file = self.workspace.files[path]
        return name in self.stand_ins[path] and name not in file.natives and name not in file.macros

    def follow(self, at):
        """Goes the way from a name until one that was met before."""
        way, end = [], VALUE
        while at not in self.after:
            after, found = self.step(*at)
            self.after[at] = after
            way.append(at)
            if after is None:
                self.ends[at] = found
                break
            self.before[after].append(at)
            at = after
        end = self.ends.get(at, VALUE)
        for it in way:
            self.ends[it] = end
        for it in way:
            if self.may_stand(*it) or self.after[it] in self.led:
                self.mark(it)

    def mark(self, at):
        """Notes that a name leads to one that something stands for, and all that lead to it; gives those that weren't noted before."""
        found, pending = [], [at]
        while pending:
            at = pending.pop()
            if at not in self.led:
                self.led.add(at)
                found.append(at)
                pending += self.before.get(at, ())
        return found

    def add(self, path, name):
        """Has something stand for a name; gives the names that lead there, and did not lead to such a one before."""
        self.stand_ins[path].add(name)
        self.known.clear()
        return self.mark((path, name)) if (path, name) in self.after and self.may_stand(path, name) else []

    def is_led(self, file, name):
        """Whether a name leads to one that something stands for."""
        if (file.path, name) not in self.after:
            self.follow((file.path, name))
        return (file.path, name) in self.led

    def origin(self, file, name):
        """What a global name of a file stands for: ("def", path, name), ("stub", place, symbol), ("rule", name), ("value",), or nothing."""
        at = (file.path, name)
        if not self.is_led(file, name):
            return self.ends[at]
        way = []
        while at not in self.known:
            way.append(at)
            if self.may_stand(*at):
                self.known[at] = ("stub", (None, at[0], ""), at[1])
            else:
                at = self.after[at]
        for it in way:
            self.known[it] = self.known[at]
        return self.known[at]

    def binding(self, file, name):
        """The file and the name in it that a global stands for, through loads alone; nothing where it is loaded from a file that isn't there."""
        seen = set()
        while name in file.globals and (file.path, name) not in seen:
            seen.add((file.path, name))
            clause = self.clause(file, name)
            if not clause:
                return file, name
            file, name = self.workspace.files.get(self.workspace.resolve(clause[0], file.path)[0]), clause[1]
            if not file:
                return None
        return None
