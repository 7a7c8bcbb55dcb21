"""What the files of a workspace ask of rules and of repositories that aren't there, and which of their statements `bq` can't read."""
import heapq
import os
import re
from collections import Counter, defaultdict

from bzlq.overlay.definitions import definition, made_up, value_for
from bzlq.overlay.extra_targets import text_of
from bzlq.overlay.global_names import VALUE, GlobalNames
from bzlq.overlay.guesses import by_values
from bzlq.overlay.lost_values import lost_names
from bzlq.overlay.reading import BUILD_FUNCTIONS, BUILT_INS, LEFT_OUT, MEMBER, OTHER_NAMES, Statement, is_provider, read
from bzlq.overlay.replaced import Replaced
from bzlq.overlay.replacements import EXISTING, NATIVE_VALUES
from bzlq.overlay.rule_attributes import RuleAttributes
from bzlq.overlay.skylib import MEMBERS, REPOSITORY as SKYLIB
from bzlq.overlay.starlark_text import starlark
from bzlq.workspace.files import MAX_SIZE, SCHEMA, content, files, has_content, is_path, own_name_in

REPOSITORY = re.compile(r"@([\w.+~-]+)(?://([^:]*)(?::(.*))?)?")
# how often a keyword is passed on from macro to macro
MOST_PASSED = 500_000
# methods of values that a stub may be, and of values that bq has
VALUE_METHODS = set("get items keys values format".split())


class Workspace:
    """A tree's files, what each of those that count says, and where its labels lead."""

    def __init__(self, root, read_all=None):
        """`read_all` gives what the files of a list of paths say, by their texts, else they are read here."""
        odd = []
        self.root, self.texts, self.resolved = root, {}, {}
        self.paths = set(files(root, odd))
        self.directories = {os.path.dirname(path) for path in self.paths if os.path.basename(path) in ("BUILD", "BUILD.bazel")}
        paths = sorted(path for path in self.paths if has_content(path) and path != SCHEMA)
        self.files = read_all(paths, self.content) if read_all else {path: read(path, self.content(path)) for path in paths}
        self.files = {path: file for path, file in self.files.items() if not self.is_hidden(path)}
        self.left_out = {}  # a package -> a file in it whose name bq can't have
        for path in sorted(odd):
            self.left_out.setdefault(self.package_of(path), path)
        self.repositories = {path.split("/")[1] for path in self.paths if path.startswith("external/") and path.count("/") > 1}
        self.name = self.own_name(root)

    def kept(self):
        """What is kept of the workspace beside what its files say."""
        return self.left_out, sorted(self.repositories), self.name

    @classmethod
    def of_kept(cls, root, files, paths, counted, kept):
        """The workspace again: `files` gives what each file says, `counted` has the paths of those that count."""
        found = cls.__new__(cls)
        found.root, found.texts, found.resolved, found.files, found.paths = root, {}, {}, files, paths
        found.directories = {os.path.dirname(path) for path in counted if os.path.basename(path) in ("BUILD", "BUILD.bazel")}
        found.left_out, repositories, found.name = kept
        found.repositories = set(repositories)
        return found

    def content(self, path):
        """The bytes of a file, which is read once."""
        if path not in self.texts:
            self.texts[path] = content(self.root, path)
        return self.texts[path]

    def is_hidden(self, path):
        """Whether this is a file `BUILD` beside a `BUILD.bazel`, which takes precedence."""
        return os.path.basename(path) == "BUILD" and path + ".bazel" in self.paths

    def own_name(self, root):
        """The name that the workspace gives itself."""
        for path in ("MODULE.bazel", "WORKSPACE.bazel", "WORKSPACE"):
            if path in self.paths:
                if found := own_name_in(content(root, path)):
                    return found.decode()
        return ""

    def left_out_of(self, file):
        """A file of the package of a BUILD file whose name bq can't have."""
        return self.left_out.get(os.path.dirname(file.path), "") if file.is_build else ""

    def build_file(self, package):
        """The BUILD file of a package; nothing where it has none."""
        return next((self.files[path] for path in (self.joined(package, name) for name in ("BUILD.bazel", "BUILD")) if path in self.files), None)

    def package_of(self, path):
        """The nearest directory above a file that is a package."""
        directory = os.path.dirname(path)
        while directory and directory not in self.directories:
            directory = os.path.dirname(directory)
        return directory

    def resolve(self, label, path):
        """Where the label of a load leads: to the path of a file, which needn't be there, and to (repository, package, name)."""
        if (label, path) not in self.resolved:
            self.resolved[label, path] = self.resolve_once(label, path)
        return self.resolved[label, path]

    def resolve_once(self, label, path):
        """The same, not looked up."""
        if found := REPOSITORY.fullmatch(label):
            repository, package, name = found[1], found[2] or "", found[3]
            name = name or package.rpartition("/")[2] or repository
        elif label.startswith(("//", "@//")):
            repository = "" if label.startswith("@") else self.repository_of(path)
            package, _, name = label.lstrip("@")[2:].partition(":")
            name = name or package.rpartition("/")[2]
        else:
            repository, name = self.repository_of(path), label.lstrip(":")
            package = self.package_of(path).removeprefix(self.directory_of(repository)).lstrip("/")
        place = (repository, package, name)
        if self.is_own(repository):
            repository = ""
        return self.joined(self.joined(self.directory_of(repository), package), name), place

    def may_hold(self, path):
        """Whether a file may be laid over the tree at this path."""
        above = path.split("/")[:-1]
        return is_path(path) and not any("/".join(above[:n]) in self.paths for n in range(1, len(above) + 1))

    @staticmethod
    def repository_of(path):
        """The repository that a path lies in; empty for the workspace's own."""
        return path.split("/")[1] if path.startswith("external/") and path.count("/") > 1 else ""

    @staticmethod
    def directory_of(repository):
        """The directory of a repository."""
        return f"external/{repository}" if repository else ""

    @staticmethod
    def joined(package, name):
        """The path of a file in a package."""
        return f"{package}/{name}" if package else name

    def is_own(self, repository):
        """Whether this is the name that the workspace gives itself, and no other repository's."""
        return bool(repository) and repository == self.name and repository not in self.repositories


class Stub:
    """What is known of a symbol of a repository that isn't there."""

    def __init__(self):
        self.makes_targets = False  # it is called with a name, as a rule or a macro
        self.is_called = False
        self.wanted = Counter()  # what its places take
        self.members = set()

    def kept(self):
        """The same as plain values."""
        return self.makes_targets, self.is_called, {kind: count for kind, count in self.wanted.items() if count}, sorted(self.members)

    @classmethod
    def of_kept(cls, kept):
        """A stub again, of what `kept` gave."""
        found = cls()
        found.makes_targets, found.is_called, wanted, members = kept
        found.wanted, found.members = Counter(wanted), set(members)
        return found


class Facts:
    """What the files of a workspace ask of rules and of other repositories."""

    def __init__(self, workspace):
        self.workspace = workspace
        self.given = defaultdict(lambda: defaultdict(Counter))  # what takes arguments -> keyword -> kinds
        self.flows = defaultdict(dict)  # a macro -> what it passes its `**` on to (keys, in order)
        self.passed = defaultdict(dict)  # a macro -> (parameter, what it is passed on to, keyword) (keys, in order)
        self.stubs = defaultdict(dict)  # (repository, package, name), or (None, path, "") of a file that is there -> symbol -> Stub
        self.left_out = defaultdict(list)  # what -> places
        self.names = GlobalNames(workspace)  # which have what is bound by statements in whose place others stand
        self.replaced = Replaced()  # those statements
        self.everywhere = defaultdict(Counter)  # keyword -> kinds
        self.refused = set()  # the paths of .bzl files that are loaded, and can't be laid over the tree
        self.struct_files = None  # once it is asked for: whether a file makes structs
        self.rule_attributes = RuleAttributes(workspace, self.names)
        self.copies = None  # once they are made: by the path a text, and how many parts of each kind it has instead
        self.further = {}  # what else macros seem to declare, once it is known (extra_targets.py)
        self.further_left = 0  # how many labels more may be such targets, of a macro that has too many
        self.loaders = Counter()  # how many files load a symbol: (repository, package, name), symbol
        self.tests_in = {}  # the tests of packages that have a `test_suite` without `tests`, once they are known
        self.taken = {}  # what places take, by keyword, once they are asked for
        self.lost_in = {}  # the names of a BUILD file in whose values something isn't there, once they are asked for, by its path
        self.inner_calls, self.binders = {}, {}  # a path -> the calls in each function, and the statements that bind each name, once they are asked for
        self.reached = self.files_reached()
        self.find_stand_ins()
        for path in sorted(self.reached):
            self.look_at(workspace.files[path])
        self.pass_on()
        for given in self.given.values():
            for keyword, kinds in given.items():
                self.everywhere[keyword].update(kinds)
        self.lost_names = lost_names(self, sorted(path for path in self.reached if not workspace.files[path].is_build), {})  # those of .bzl files

    def kept(self):
        """What a copy of a file depends on, beside what files say: all of it is of plain values."""
        return {
            "replaced": {path: [tuple(vars(it).values()) for it in found] for path, found in self.replaced.listed.items() if found},
            "stand_ins": {path: sorted(names) for path, names in self.names.stand_ins.items() if names},
            "stubs": [(place, symbol, it.kept()) for place, symbols in self.stubs.items() for symbol, it in symbols.items()],
            "everywhere": {keyword: {kind: count for kind, count in kinds.items() if count} for keyword, kinds in self.everywhere.items()},
            "further": [(place, found) for place, found in self.further.items()],
            "lost_names": sorted(self.lost_names.items()), "struct_files": self.has_structs(),
        }

    @classmethod
    def of_kept(cls, workspace, kept):
        """The facts again, as far as copies depend on them."""
        found = cls.__new__(cls)
        found.workspace, found.names, found.replaced = workspace, GlobalNames(workspace), Replaced()
        for path, listed in kept["replaced"].items():
            for it in listed:
                found.replaced.add(path, Statement(*it))
        found.names.stand_ins.update((path, set(names)) for path, names in kept["stand_ins"].items())
        found.stubs, found.left_out, found.inner_calls, found.taken, found.struct_files = defaultdict(dict), defaultdict(list), {}, {}, kept["struct_files"]
        for place, symbol, it in kept["stubs"]:
            found.stubs[place][symbol] = Stub.of_kept(it)
        found.everywhere = defaultdict(Counter, {keyword: Counter(kinds) for keyword, kinds in kept["everywhere"].items()})
        found.further, found.lost_names, found.lost_in = dict(kept["further"]), dict(kept["lost_names"]), {}
        return found

    def for_copies(self):
        """The same as far as it decides about the text of a copy: where this is as it was, a copy of the same file is too."""
        kept = self.kept()
        stubs = [(place, symbol, makes, is_called, members, value_for(self.stubs[place][symbol]), definition("", symbol, self.stubs[place][symbol]))
                 for place, symbol, (makes, is_called, _, members) in kept["stubs"]]
        return {**kept, "stubs": sorted(stubs, key=repr), "everywhere": {keyword: by_values(kinds) for keyword, kinds in self.everywhere.items() if by_values(kinds)}}

    def files_reached(self):
        """The paths of the BUILD files, and of what they load, directly or not."""
        found = {path for path, file in self.workspace.files.items() if file.is_build}
        pending = list(found)
        while pending:
            path = pending.pop()
            for label, *_ in self.workspace.files[path].loads:
                loaded, _ = self.workspace.resolve(label, path)
                if loaded in self.workspace.files and loaded not in found:
                    found.add(loaded)
                    pending.append(loaded)
        return found

    def unread(self):
        """The files that count and aren't read here."""
        return [self.workspace.files[path] for path in sorted(self.reached) if self.workspace.files[path].broken]

    def suites(self):
        """The packages that have a `test_suite` without `tests`."""
        files = [file for file in self.workspace.files.values() if file.is_build]
        return {os.path.dirname(file.path) for file in files for call in file.calls if call.name == "test_suite" and "tests" not in call.keywords and not call.splats}

    def known_member(self, file, name, member):
        """The symbol that stands for a member of one of skylib's structs, where the file loads the struct from skylib's own file."""
        found = self.origin(file, name) if name in file.globals else None
        if not found or found[0] != "stub" or found[1][0] != SKYLIB or f"{found[2]}__{member}" not in MEMBERS:
            return ""
        return f"{found[2]}__{member}" if self.is_loaded_from(file, name, found[1]) else ""

    def find_stand_ins(self):
        """Finds the statements of .bzl files that `bq` can't read, and those that ask for a member of what such a statement binds."""
        called = {(path, call.name) for path in self.reached for call in self.workspace.files[path].calls
                  if call.is_statement and "name" in call.keywords and not call.is_native}
        for path, name in sorted(called):
            self.replace_rule(self.workspace.files[path], name)
        waiting = defaultdict(list)  # a name -> the statements that ask for a member of it, or of one that leads to it
        for path in sorted(self.reached):
            file = self.workspace.files[path]
            if not file.is_build and not file.broken:
                self.replace_faulty(file, waiting)

    def replace_faulty(self, file, waiting):
        """Finds these statements of a file."""
        faulty = self.faulty_lines(file)
        members = defaultdict(set)
        for name, member, line, _ in file.members:
            if member not in (*VALUE_METHODS, "with_or") and not self.known_member(file, name, member):
                members[line].add(name)
        # (statements of the same lines ask for the same members)
        together = defaultdict(list)
        for statement in file.statements:
            if self.replaced.has(file.path, statement):
                continue
            is_large = file.size > MAX_SIZE and any(file.kinds.get(name) == "dict" for name in statement.names)
            if is_large or not faulty.isdisjoint(range(statement.first, statement.last + 1)):
                self.replace(file, statement, waiting)
            elif statement.names:
                together[statement.first, statement.last].append(statement)
        for (first, last), statements in together.items():
            asked = {name for line in range(first, last + 1) for name in members.get(line, ())}
            if any(self.is_stub(file, name) for name in asked):
                for statement in statements:
                    self.replace(file, statement, waiting)
            else:
                for name in asked:
                    waiting[file.path, name].append((file, statements))

    def replace_rule(self, file, name):
        """Has what a call makes, and what is called as a rule, stand for a rule: `x_test = make_test(..)`."""
        found = self.names.binding(file, name)
        if found and not found[0].is_build and found[1] in found[0].called and self.names.origin(*found) == VALUE:
            for statement in self.statements_of(*found):
                if not self.replaced.has(found[0].path, statement):
                    self.replace(found[0], statement)

    def statements_of(self, file, name):
        """The statements of a file that bind a name."""
        if file.path not in self.binders:
            found = self.binders[file.path] = defaultdict(list)
            for statement in file.statements:
                for it in dict.fromkeys(statement.names):
                    found[it].append(statement)
        return self.binders[file.path].get(name, ())

    def replace(self, file, statement, waiting=None):
        """Has another statement stand in the place of this one, and of those that wait for what it binds."""
        pending = [(file, statement)]
        while pending:
            file, statement = pending.pop()
            if self.replaced.has(file.path, statement):
                continue
            self.replaced.add(file.path, statement)
            for led in [it for name in statement.names for it in self.names.add(file.path, name)]:
                pending += [(other, it) for other, statements in (waiting.pop(led, ()) if waiting else ()) for it in statements]

    def faulty_lines(self, file):
        """The lines with something that the language leaves out, or a name that a .bzl file hasn't here: one that nothing binds, in Bazel neither, is bq's to tell."""
        known = self.lines_of_records(file)
        found = {line for line, what in file.faults if what != "select" and not (what == MEMBER and line in known)}
        found |= {call.line for call in file.calls if self.is_unknown(file, call.name, call.is_native) and (call.is_native or not self.is_unbound(file, call.name))}
        found |= {line for name, _, line in file.uses if self.is_unknown(file, name, False) and not self.is_unbound(file, name)}
        return found | {line for name, _, line, _ in file.members if self.is_unknown(file, name, False)}

    def records_loaded(self, file):
        """The names that a .bzl file loads which are structs of data, each with their fields."""
        found = {}
        for name in {name for _, _, clauses in file.loads for name in clauses} if file.loaded_members else ():
            bound = self.names.binding(file, name)
            if bound and bound[1] in bound[0].records and not bound[0].is_build:
                found[name] = set(bound[0].records[bound[1]])
        return found

    def lines_of_records(self, file):
        """The lines in which all members that aren't called are fields of structs of data that the file loads."""
        records, asked = self.records_loaded(file), Counter()
        for name, members, line in file.loaded_members if records else ():
            if records.get(name, set()).issuperset(members):
                asked[line] += len(members)
        left = Counter(line for line, what in file.faults if what == MEMBER and line in asked)
        return {line for line, count in asked.items() if left[line] == count}

    @staticmethod
    def is_unbound(file, name):
        """Whether nothing binds a name that a .bzl file uses, nor does Bazel."""
        is_known = name in file.globals or name in BUILT_INS or name in BUILD_FUNCTIONS or name in LEFT_OUT or name in OTHER_NAMES
        return not file.is_build and not is_known and not is_provider(name)

    def unbound(self, file):
        """The lines of a .bzl file with names that nothing binds, each with the first of these, in order."""
        if file.is_build:
            return []
        used = [(it.line, it.name) for it in file.calls if not it.is_native] + [(line, name) for name, _, line in file.uses]
        return sorted({(line, name) for line, name in used if self.is_unbound(file, name)})

    @staticmethod
    def is_unknown(file, name, is_native):
        """Whether a .bzl file has no such name."""
        if is_native:
            return name in LEFT_OUT and name not in NATIVE_VALUES
        return name not in file.globals and name not in BUILT_INS and name != "select"

    def is_stub(self, file, name):
        """Whether a global name of a file comes from a file that isn't there."""
        if name not in file.globals:
            return False
        if self.names.is_led(file, name):
            return True
        found = self.names.origin(file, name)
        return bool(found) and found[0] == "stub"

    def cannot(self, what, file, line):
        """Notes a place that bq can't load."""
        if not self.is_replaced(file, int(str(line).split()[0])):
            self.left_out[what].append(f"{file.path}:{line}")

    def stub(self, place, symbol):
        """What is known of a symbol of a file that isn't there."""
        return self.stubs[place].setdefault(symbol, Stub())

    def origin(self, file, name):
        """What a global name of a file stands for: ("def", path, name), ("stub", place, symbol), ("rule", name), ("value",), or nothing."""
        return self.names.origin(file, name)

    def kind_of_global(self, file, name):
        """What the value of a global is like, as far as the text that binds it shows it."""
        found = (file, name) if name in file.kinds else self.names.binding(file, name)
        return found[0].kinds.get(found[1], "other") if found else "other"

    def look_at(self, file):
        """Notes what a file asks for."""
        if file.broken:
            self.cannot("a file that isn't read here", file, file.broken.split(":")[0])
            return
        for label, _, clauses in file.loads:
            path, place = self.workspace.resolve(label, file.path)
            for symbol in clauses.values():
                self.loaders[place, symbol] += 1
                if path not in self.workspace.files or self.workspace.is_own(place[0]):
                    self.stub(place, symbol)
        for name in sorted(self.names.stand_ins.get(file.path, ())):
            self.stub((None, file.path, ""), name).makes_targets |= name in file.made
        for call in file.calls:
            self.call(file, call)
        for name, wanted, line in file.uses:
            self.use(file, name, wanted, line)
        for name, member, keywords, _ in file.member_calls:
            self.member_call(file, name, member, keywords)
        for name, member, line, is_called in file.members:
            self.member(file, name, member, line, is_called)
        for line, what in file.faults:
            if what != "select":
                self.cannot(what, file, line)

    def callee(self, file, name, is_native):
        """What a call gives its arguments to; nothing for what takes none, or isn't known."""
        if is_native:
            is_value = name in BUILD_FUNCTIONS or name in LEFT_OUT or name in NATIVE_VALUES or name == "package_relative_label"
            return None if is_value else ("rule", name)
        if name in file.globals:
            found = self.origin(file, name)
            return found if found and found[0] != "value" else None
        if name in BUILT_INS or name in BUILD_FUNCTIONS or name in LEFT_OUT or not file.is_build:
            return None
        return "rule", name

    def call(self, file, call):
        """Notes what a call says of what it calls."""
        if call.is_native and self.is_unknown(file, call.name, True):
            self.cannot(f"native.{call.name}", file, call.line)
        callee = self.callee(file, call.name, call.is_native)
        if not callee:
            if not call.is_native and call.name not in file.globals and call.name not in BUILT_INS | BUILD_FUNCTIONS:
                self.cannot(f"the name {call.name}", file, call.line)
            return
        given = self.given[callee]  # (also where it has no keywords)
        for keyword, kind in call.keywords.items():
            given[keyword][kind] += 1
        inside = file.defs.get(call.inside)
        if inside and inside.rest in call.splats and inside.rest:
            self.flows["def", file.path, call.inside][callee] = None
        for keyword, name in call.passed.items():
            if inside and name in inside.parameters:
                self.passed["def", file.path, call.inside][name, callee, keyword] = None
        if callee[0] == "stub" and not self.is_replaced(file, call.line):
            stub = self.stub(*callee[1:])
            stub.is_called = True
            stub.wanted[call.wanted] += not call.is_statement
            stub.makes_targets |= "name" in call.keywords or call.is_statement and bool(call.splats or call.keywords and call.positional)

    def is_replaced(self, file, line):
        """Whether another statement stands in the place of the one in this line."""
        return self.replaced.has_line(file.path, line)

    def use(self, file, name, wanted, line):
        """Notes that a name is used as a value."""
        if name in file.globals:
            if self.is_replaced(file, line):
                return
            found = self.origin(file, name)
            if found and found[0] == "stub":
                self.stub(*found[1:]).wanted[wanted] += 1
        elif name == "native" or name not in BUILT_INS | BUILD_FUNCTIONS:
            self.cannot(f"the name {name}", file, line)

    def member(self, file, name, member, line, is_called):
        """Notes that a member of a global name is used."""
        found = self.origin(file, name) if name in file.globals else None
        if symbol := self.known_member(file, name, member):
            self.stub(found[1], symbol)
        elif found and found[0] == "stub":
            self.stub(*found[1:]).members.add(member)
            if member not in (*VALUE_METHODS, "with_or") and not file.is_build:
                self.cannot("a member of what another file gives", file, f"{line} {name}.{member}")
        elif name not in file.globals and is_called and name not in BUILT_INS:
            self.cannot(f"the name {name}", file, line)

    def member_call(self, file, name, member, keywords):
        """Has a symbol stand for a member that a BUILD file calls as a rule."""
        found = self.origin(file, name) if file.is_build and name in file.globals and "name" in keywords else None
        if found and found[0] == "stub" and self.is_loaded_from(file, name, found[1]):
            symbol = f"{found[2]}__{member}"
            self.stub(found[1], symbol).makes_targets = True
            self.stub(found[1], symbol).is_called = True
            for keyword, kind in keywords.items():
                self.given["stub", found[1], symbol][keyword][kind] += 1

    def is_loaded_from(self, file, name, place):
        """Whether a file loads a name from this very place."""
        clause = self.names.clause(file, name)
        if not clause:
            return False
        path, loaded = self.workspace.resolve(clause[0], file.path)
        return place in (loaded, (None, path, ""))

    def member_stub(self, file, name, member):
        """The stub for a member that a BUILD file calls as a rule."""
        found = self.origin(file, name) if name in file.globals else None
        return self.stubs[found[1]].get(f"{found[2]}__{member}") if found and found[0] == "stub" else None

    def is_plain_global(self, file, name):
        """Whether the text that binds a global shows its value, which is neither a dict nor has a `select`."""
        found = (file, name) if name in file.plain else self.names.binding(file, name)
        return bool(found) and found[1] in found[0].plain

    def calls_in(self, path, function):
        """The calls in a function of a file."""
        if path not in self.inner_calls:
            found = self.inner_calls[path] = defaultdict(list)
            for call in self.workspace.files[path].calls:
                found[call.inside].append(call)
        return self.inner_calls[path].get(function, ())

    def has_structs(self):
        """Whether a file makes structs."""
        if self.struct_files is None:
            self.struct_files = any(it.structs[0] for it in self.workspace.files.values())
        return self.struct_files

    def fields_loaded(self, file):
        """The fields of structs that files make which a file loads, directly or not."""
        found, seen, pending = set(), {file.path}, [file] if self.has_structs() else []
        while pending:
            it = pending.pop()
            for path in {self.workspace.resolve(label, it.path)[0] for label, *_ in it.loads} - seen:
                if loaded := self.workspace.files.get(path):
                    seen.add(path)
                    found |= loaded.structs[0]
                    pending.append(loaded)
        return frozenset(found)

    def stand_in(self, path, name):
        """The text that stands for what the statement of a name binds."""
        place, file = (None, path, ""), self.workspace.files[path]
        if name in file.macros:
            defaults = starlark(self.rule_attributes.of_macro(path, name)[0])
            return f"def {name}(name, visibility = None, **given): {file.macros[name][0]}(name = name, visibility = visibility, **dict({defaults}, **given))"
        if file.size > MAX_SIZE and file.kinds.get(name) == "dict":
            return f"{name} = {{}}"
        return definition("", name, self.stub(place, name), self.lost_of(place, name), *self.rule_attributes.of_rule(path, name), self.rule_attributes.limits_of(path, name)) + text_of(self.further.get((place, name)))

    def makes_targets(self, file, name):
        """Whether a name stands for a macro or rule that isn't there."""
        found = self.origin(file, name) if name in file.globals else None
        return bool(found) and found[0] == "stub" and self.stub(*found[1:]).makes_targets

    def lost_value(self, file, name):
        """What is said of a name that a value stands for; nothing of another."""
        if name == EXISTING:
            return "value: existing_rules of native"
        found = self.origin(file, name)
        if not found or found[0] != "stub" or found[1][0] == SKYLIB or self.stub(*found[1:]).makes_targets:
            return ""
        repository, package, base = found[1]
        place = package if repository is None else (f"@{repository}" if repository else "") + f"//{package}:{base}"
        return f"value: {found[2]} of {place}"

    def value_lost(self, file, name):
        """The same, and what is said of a name in whose value, or in whose function, such a one is."""
        told, bound = self.lost_value(file, name), self.names.binding(file, name)
        if told or not bound:
            return told
        path = bound[0].path
        if bound[0].is_build and path not in self.lost_in:
            self.lost_in[path] = lost_names(self, [path], self.lost_names)
        return (self.lost_in[path] if bound[0].is_build else self.lost_names).get((path, bound[1]), "")

    def members_of(self, path):
        """The texts that stand for members of what a file binds."""
        place = (None, path, "")
        known = self.names.stand_ins.get(path, ())
        return [definition("", name, stub, self.lost_of(place, name)) for name, stub in sorted(self.stubs.get(place, {}).items()) if name not in known]

    def lost_of(self, place, symbol):
        """What is made up of the targets that a stub declares."""
        repository, package, name = place
        if repository is not None:
            label = (f"@{repository}" if repository else "") + f"//{package}:{name}"
            return made_up(symbol, label)
        file = self.workspace.files[package]
        if symbol in file.made:
            return []
        replaced = self.replaced.of_name(package, symbol.partition("__")[0])
        line = replaced.first if replaced else 1
        return [f"targets: {symbol} of {package}:{line}, in which bq leaves something out, may declare more"]

    def pass_on(self):
        """Has each macro pass what its callers give it on to what it gives its `**`, and its parameters: in rounds, each over those that were given
        something since."""
        ways = [(macro, self.pass_splats) for macro in self.flows] + [(macro, self.pass_parameters) for macro in self.passed]
        places = defaultdict(list)
        for at, (macro, _) in enumerate(ways):
            places[macro].append(at)
        now, later, left = list(range(len(ways))), set(), MOST_PASSED
        queued = set(now)
        while now and left > 0:
            at = heapq.heappop(now)
            queued.remove(at)
            macro, passes = ways[at]
            count, told = passes(macro)
            left -= count
            for place in (it for callee in told for it in places.get(callee, ())):
                if place <= at:
                    later.add(place)
                elif place not in queued:
                    queued.add(place)
                    heapq.heappush(now, place)
            if not now:
                now, queued, later = sorted(later), later, set()
        self.is_passed_on = not now

    def pass_splats(self, macro):
        """Has a macro pass keywords on to what it gives its `**`; gives how many that were, and to what any of it was new."""
        parameters = set(self.workspace.files[macro[1]].defs[macro[2]].parameters)
        keywords = [keyword for keyword in self.given[macro] if keyword not in parameters]
        told = {callee: None for callee in self.flows[macro] for keyword in keywords if self.tell(callee, keyword, self.given[macro][keyword])}
        return len(keywords) * len(self.flows[macro]), told

    def pass_parameters(self, macro):
        """The same for what it passes its parameters on to."""
        defaults, given = self.workspace.files[macro[1]].defs[macro[2]].defaults, self.given[macro]
        told = {callee: None for parameter, callee, keyword in self.passed[macro]
                if self.tell(callee, keyword, given[parameter] + Counter([defaults.get(parameter, "other")]))}
        return len(self.passed[macro]), told

    def tell(self, callee, keyword, kinds):
        """Has what a keyword is given elsewhere count where nothing else tells what it is like; gives whether that was new."""
        known = self.given[callee][keyword]
        if any(count for kind, count in known.items() if kind not in ("other", "none")):
            return False
        telling = {kind: count for kind, count in kinds.items() if kind not in ("other", "none")}
        is_new = bool(telling) or not known
        known.update(telling or {"other": 1})
        return is_new
