"""Copies of a workspace's files in which stands, in place of what `bq` leaves out, something that it reads. Lines keep their numbers."""
import ast
import bisect
import difflib
import fnmatch
import re
from collections import Counter, defaultdict

from bzlq.overlay.analysis import VALUE_METHODS
from bzlq.overlay.arguments import LABEL as GIVEN, PREFIX
from bzlq.overlay.definitions import value_for
from bzlq.overlay.guesses import BY_NAME, type_of
from bzlq.overlay.reading import BUILD_FUNCTIONS, PLACEHOLDER, TRISTATES, Either, bound_by, children_of, has_name, kind_of, makers_of, names_bound, nodes_of, parsed, why_not
from bzlq.overlay.replacements import EXISTING, NATIVE_VALUES, REPLACED, asks_for_rules, field, label_in, labels_bound, replacement, root_name
from bzlq.overlay.rule_sets import BAZEL, TESTS, TYPES
from bzlq.overlay.starlark_text import quoted
from bzlq.workspace.files import SCHEMA

LISTS = ("labels", "strings", "list")
# what the language takes of escapes, beside a backslash before a line end
ESCAPES = set("nrt\\'\"\n\r")

# the BUILD files of the package that has the overlay's schema, and what globs there without it
ROOT_BUILDS, GLOB = ("BUILD", "BUILD.bazel"), PREFIX + "glob"
# the arguments of `package(..)`, and how near to one of them a misspelt one is
OF_PACKAGES = """default_applicable_licenses default_compatible_with default_copts default_deprecation default_hdrs_check default_package_metadata
    default_restricted_to default_testonly default_visibility distribs features licenses transitive_visibility""".split()
NEAR = 0.8
# halves of characters
HALVES = re.compile("[\ud800-\udfff]")
# a line that can't be in a bundle: mostly one of a docstring or a comment
HEADER = re.compile(rb"^=== ", re.M)


class Copy:
    """The parts of a file that are replaced."""

    def __init__(self, facts, file, text):
        self.facts, self.file, self.text = facts, file, text
        self.starts = [0]
        for line in text.split(b"\n"):
            self.starts.append(self.starts[-1] + len(line) + 1)
        self.parts = []  # (start, end, text)
        self.counts = Counter()
        self.uses_given = {}  # what the copy loads of `given`: names, and those that they have there
        self.lost = []  # what the values are, in the function around, that aren't there
        self.has_glob = False  # whether the function around has one
        self.makers = set()  # parameters of the function around whose members declare targets
        self.labels = set()  # the names that it binds to labels
        self.own_names(set())
        self.loads_more = defaultdict(set)  # a loaded name -> members that stand as symbols of their own
        self.empty_texts = empty_texts(facts, file)
        self.with_directories = named_directories(text)
        self.structs = file.structs
        if file.is_build and (fields := facts.fields_loaded(file)):
            # (members of what isn't there are none)
            self.structs = fields, {it for it in file.globals if facts.value_lost(file, it) or facts.is_stub(file, it)}
        self.records = {} if file.is_build else facts.records_loaded(file)
        self.more = ""  # a line at the end
        self.has_escapes = b"\\" in text
        own = facts.workspace.name
        self.names_own = re.compile(rf"@{re.escape(own)}//[^\s\\]*") if names_own(facts, file) else None

    def own_names(self, names):
        """Goes into a function that binds these names."""
        self.locals = names
        # (`all_names` is asked for each node)
        self.all_names = Either(names, self.file.globals) if names else self.file.globals

    def span(self, node):
        """The place of a node in the text: where it begins and ends."""
        return self.starts[node.lineno - 1] + node.col_offset, self.starts[node.end_lineno - 1] + node.end_col_offset

    def replace(self, start, end, before, after=""):
        """Puts two texts in the place of another, with as many line ends between them as it has."""
        self.parts.append((start, end, before.encode() + b"\n" * self.text.count(b"\n", start, end) + after.encode()))

    def result(self):
        """The text with its parts replaced; nothing where none is."""
        refused, unbound = refused_in(self.file), self.facts.unbound(self.file)
        for node, statement in zip(parsed(self.text).body, self.file.statements):
            at = bisect.bisect_left(refused, (node.lineno,))
            if at < len(refused) and refused[at][0] <= node.end_lineno:
                _, kind, why = refused[at]
                self.replace(*self.span(node), f'fail({quoted(why)})')
                self.counts[kind] += 1
            elif self.facts.replaced.has(self.file.path, statement):
                at = bisect.bisect_left(unbound, (node.lineno,))
                if at < len(unbound) and unbound[at][0] <= node.end_lineno:
                    line, name = unbound[at]
                    self.replace(*self.span(node), f'fail("name \'{name}\' is not defined, in line {line}")')
                    self.counts["a name that nothing binds"] += 1
                else:
                    self.stand_in(node, statement)
            else:
                self.statement(node)
        for node in parsed(self.text).body if self.loads_more else []:
            self.load_more(node)
        if self.uses_given:
            names = "".join(f', {name} = "{symbol}"' for name, symbol in sorted(self.uses_given.items()))
            # (a load counts wherever it stands, and here no line is moved)
            self.more = f'load("{GIVEN}"{names})\n'
        for found in HEADER.finditer(self.text):
            self.parts.append((found.start(), found.start(), b" "))
            self.counts["a line like a bundle's header"] += 1
        if not self.parts and not self.uses_given:
            return None
        found, end = [], 0
        # (of parts at one place the outer one was put there first)
        for start, after, part in sorted(self.parts, key=lambda it: it[:2]):
            found += [self.text[end:start], part]
            end = after
        return b"".join([*found, self.text[end:], b"" if self.text.endswith(b"\n") else b"\n", self.more.encode()])

    def stand_in(self, node, statement):
        """What stands for a statement that the language leaves out."""
        self.replace(*self.span(node), "; ".join(self.facts.stand_in(self.file.path, name) for name in statement.names))
        self.counts["a definition"] += 1

    def statement(self, node):
        """Replaces what bq leaves out of a statement."""
        match node:
            case ast.Expr(value=ast.Call(func=ast.Name(id="load"), args=[ast.Constant(value=str() as label) as first, *_])):
                if not label.startswith(("//", ":", "@")):
                    start, _ = self.span(first)
                    self.replace(start + 1, start + 1, ":")
                    self.counts["a load"] += 1
            case ast.Expr(value=ast.Call(func=ast.Attribute(value=ast.Name(id=name), attr=member) as called) as call) if self.file.is_build:
                if self.facts.member_stub(self.file, name, member):
                    self.replace(*self.span(called), f"{name}__{member}")
                    self.loads_more[name].add(member)
                    self.counts["a member"] += 1
                    self.arguments(call)
                else:
                    self.visit(call)
            case _:
                self.visit(node)

    def load_more(self, node):
        """Loads with a name also what stands for its members."""
        if not (isinstance(node, ast.Expr) and isinstance(node.value, ast.Call) and getattr(node.value.func, "id", "") == "load"):
            return
        clauses = [(part.value, part.value, part) for part in node.value.args[1:]]
        clauses += [(key.arg, key.value.value, key.value) for key in node.value.keywords]
        for name, symbol, part in clauses:
            for member in sorted(self.loads_more.pop(name, ())):
                _, end = self.span(part)
                is_same = name == symbol
                self.parts.append((end, end, f', {"" if is_same else f"{name}__{member} = "}"{symbol}__{member}"'.encode()))

    def visit(self, node, wanted=""):
        """Replaces parts of an expression or statement; `wanted` is what its place takes: list, text, unknown, or empty."""
        if node.__class__ is ast.Constant:
            if self.names_own and isinstance(node.value, str) and self.names_own.fullmatch(node.value):
                self.own_label(node)
            elif self.has_escapes and isinstance(node.value, str):
                self.escapes(node)
            return
        if found := replacement(node, self.all_names, self.labels, self.structs) if isinstance(node, REPLACED) else None:
            self.put(node, found)
            return
        if self.records and isinstance(node, ast.Attribute) and self.is_field(node):
            self.put(node, field(node))
            return
        match node:
            case ast.Call():
                self.call(node, wanted)
            case ast.Attribute(value=ast.Name(id="native"), attr=name) if self.is_rule(name, True):
                self.given(node, PREFIX + name)
            case ast.Attribute(value=ast.Name(id=name), attr=member) if self.member(node, name, member, wanted):
                pass
            case ast.Attribute() if self.file.is_build:
                self.empty(node, wanted)
            case ast.BinOp(op=ast.Add()):
                self.sum(node, wanted)
            case ast.FunctionDef():
                nodes = nodes_of(node)
                self.makers, self.labels = makers_of(node, nodes), labels_bound(nodes)
                self.own_names(names_bound(node, nodes))
                self.lost, self.has_glob = self.values_lost(nodes), any(isinstance(it, ast.Attribute) and it.attr == "glob" for it in nodes)
                for part in children_of(node):
                    self.visit(part)
                self.makers, self.labels, self.lost, self.has_glob = set(), set(), [], False
                self.own_names(set())
            case ast.ListComp(elt=ast.Attribute()) if self.file.is_build:
                self.around(node, "[part for part in ", " if part]")
                for part in children_of(node):
                    self.visit(part, "text")
            case ast.List(elts=parts):
                if any(self.is_empty_text(part) for part in parts):
                    self.around(node, "[part for part in ", " if part]")
                for part in parts:
                    self.visit(part, "text")
            case ast.AugAssign(op=ast.Add(), value=value):
                self.visit(value, "list" if self.kind(value) == "other" else "")
            case _:
                for part in children_of(node):
                    self.visit(part, wanted if isinstance(node, ast.IfExp) else "")

    def sum(self, node, wanted):
        """Replaces parts of a sum, whose parts lie one in another."""
        rights = []
        while isinstance(node, ast.BinOp) and isinstance(node.op, ast.Add):
            wanted = "list" if self.kind(node.left) in LISTS or self.kind(node.right) in LISTS else wanted
            rights.append((node.right, wanted))
            node = node.left
        self.visit(node, wanted)
        for right, of in reversed(rights):
            self.visit(right, of)

    def is_empty_text(self, node):
        """Whether an empty text stands for an element of a list, or may."""
        return isinstance(node, ast.Name) and node.id in self.empty_texts - self.locals or isinstance(node, ast.Attribute) and self.file.is_build

    def put(self, node, found):
        """Puts a replacement's texts in the place of a node, around those of its parts that stay."""
        start, end = self.span(node)
        text = ""
        for piece in found.pieces:
            if isinstance(piece, str):
                text += piece
                continue
            inner, after = self.span(piece)
            self.replace(start, inner, text)
            self.visit(piece, found.wanted)
            start, text = after, ""
        self.replace(start, end, "", text)
        self.counts[found.what] += 1

    def call(self, node, wanted):
        """Replaces what bq leaves out of a call."""
        match node.func:
            case ast.Name(id="select"):
                self.select(node, wanted)
            case ast.Name(id=name) if self.file.is_build and name not in self.file.globals and self.is_rule(name, False) and self.may_lose(node):
                self.rule(node, name)
            case ast.Attribute(value=ast.Name(id="native"), attr=name) if self.is_rule(name, True):
                self.rule(node, name)
            case _ if label_in(node):
                self.label(node, label_in(node))
            case ast.Name(id=name) if name not in self.locals and self.facts.makes_targets(self.file, name):
                self.tell_lost(node)
                self.arguments(node)
            case ast.Attribute(value=ast.Name(id="native"), attr="glob") if not self.file.is_build and self.may_match_schema(node):
                self.given(node.func, GLOB)
                self.counts["a glob"] += 1
                self.arguments(node)
            case ast.Name(id="glob") if self.file.path in ROOT_BUILDS and "glob" not in self.file.globals and self.may_match_schema(node):
                self.uses_given["glob"] = GLOB
                self.counts["a glob"] += 1
                self.arguments(node)
            case ast.Attribute(value=ast.Name(id="native"), attr=member) if member in NATIVE_VALUES:
                self.replace(*self.span(node), "", NATIVE_VALUES[member])
                self.counts["a member"] += 1
            case ast.Attribute(value=ast.Name(id=name)) as called if name in self.makers:
                self.made(node, called, wanted)
            case ast.Attribute(value=ast.Name(id=name), attr="with_or") if self.facts.is_stub(self.file, name):
                self.select(node, wanted)
            case ast.Attribute(value=ast.Name(id=name), attr=member) if self.is_empty_member(name, member):
                self.member(node, name, member, wanted)
            case ast.Attribute(value=ast.Name(id=name) as of, attr=member):
                if not self.member(node.func, name, member, wanted):
                    self.visit(of)
                self.arguments(node)
            case ast.Attribute(value=of):
                self.visit(of)
                self.arguments(node)
            case _:
                self.visit(node.func)
                self.arguments(node)

    def may_match_schema(self, node):
        """Whether a glob may match the overlay's schema, which is no file of the workspace."""
        include = [*node.args[:1], *(key.value for key in node.keywords if key.arg == "include")]
        parts = include[0].elts if include and isinstance(include[0], ast.List) else [None]
        patterns = [getattr(it, "value", None) for it in parts]
        may = (not isinstance(it, str) or fnmatch.fnmatchcase(SCHEMA, it.replace("**/", "")) for it in patterns)
        return SCHEMA not in self.facts.workspace.paths and any(may)

    def label(self, node, text):
        """The text of a label in place of the label."""
        start, end = self.span(node)
        inner, after = self.span(text)
        self.replace(start, inner, "(")
        self.replace(after, end, "", ")")
        self.visit(text)
        self.counts["a label"] += 1

    def is_empty_member(self, name, member):
        """Whether an empty value stands for a member, and for a call of it, in a BUILD file."""
        is_value = member in VALUE_METHODS or self.facts.known_member(self.file, name, member)
        return self.file.is_build and not is_value and self.facts.is_stub(self.file, name)

    def member(self, node, name, member, wanted):
        """Puts something in the place of a member of a stub; gives whether it was one."""
        if self.facts.known_member(self.file, name, member):
            self.replace(*self.span(node), f"{name}__{member}")
            self.loads_more[name].add(member)
            self.counts["a member"] += 1
        elif self.is_empty_member(name, member):
            self.empty(node, wanted)
        else:
            return False
        return True

    def is_field(self, node):
        """Whether a node is a field of a struct of data that the file loads, or of a struct in such a field."""
        name = root_name(node.value)
        return name not in self.locals and node.attr in self.records.get(name, ())

    def empty(self, node, wanted):
        """An empty value for a member."""
        self.replace(*self.span(node), "", {"list": "[]", "text": '""'}.get(wanted, "None"))
        self.counts["a member"] += 1

    def made(self, call, called, wanted):
        """A member of a parameter that stands for the rules: a rule or function of BUILD files, or else an empty value."""
        if called.attr == "select":
            self.select(call, wanted)
            return
        self.counts["a member"] += 1
        if self.is_rule(called.attr, True) and has_name(call):
            self.rule(call, called.attr)
        elif has_name(call) and called.attr not in BUILD_FUNCTIONS and not call.args:
            self.replace(*self.span(called), f'native.{called.attr}(**bzlq_given("{called.attr}", [], dict')
            self.tell_lost(call)
            self.arguments(call)
            _, end = self.span(call)
            self.parts.append((end, end, b"))"))
        elif has_name(call) or called.attr in BUILD_FUNCTIONS:
            self.replace(*self.span(called.value), "native")
            self.arguments(call)
        else:
            self.replace(*self.span(call), "", {"list": "[]", "text": f'":{called.attr}"'}.get(wanted, "None"))

    def arguments(self, call):
        """Replaces what bq leaves out of arguments."""
        for part in call.args:
            self.visit(part)
        for keyword in call.keywords:
            self.argument(keyword, keyword.value)

    def argument(self, keyword, value):
        """A keyword argument; what Bazel takes there and bq doesn't has something else in its place."""
        start, end = self.span(value)
        if keyword.arg == "exclude_directories" and isinstance(value, ast.Constant):
            if value.value not in (1, True):
                self.put_instead(value, "1", "directories in a glob")
        elif keyword.arg in TRISTATES and isinstance(value, ast.Constant) and isinstance(value.value, bool):
            self.put_instead(value, str(int(value.value)), "a bool")
        elif keyword.arg == "exclude" and not all_patterns(value):
            self.uses_given["bzlq_patterns"] = "bzlq_patterns"
            self.parts += [(start, start, b"bzlq_patterns("), (end, end, b")")]
            self.counts["a pattern"] += 1
        elif self.is_choice(keyword):
            inner, after = self.span(value.args[-1])
            self.replace(start, inner, "(")
            self.replace(after, end, "", ")")
            self.visit(value.args[-1])
            self.counts["a choice"] += 1
        else:
            if isinstance(value, ast.Name) and value.id in self.empty_texts - self.locals and BY_NAME.get(keyword.arg) == "label":
                self.around(value, "(", " or None)")
            self.visit(value, self.takes(keyword.arg))

    def put_instead(self, node, text, what):
        """Puts a text in the place of a node, which is counted as this."""
        self.replace(*self.span(node), "", text)
        self.counts[what] += 1

    def is_choice(self, keyword):
        """Whether one value is wanted, and a function that isn't there is to choose it: the last that it is given stands for it, as `if_cuda(1, 0)`."""
        match keyword.value:
            case ast.Call(func=ast.Name(id=name), args=[_, *_], keywords=[]) if name not in self.locals and name in self.file.globals:
                return self.takes(keyword.arg) == "text" and bool(self.facts.lost_value(self.file, name))
            case _:
                return False

    def around(self, node, before, after):
        """Puts texts around a node that may be an empty text, which is no label."""
        start, end = self.span(node)
        self.parts += [(start, start, before.encode()), (end, end, after.encode())]
        self.counts["an empty text"] += 1

    def is_rule(self, name, is_native):
        """Whether a name is a rule of Bazel's own here."""
        return name not in self.locals and self.facts.callee(self.file, name, is_native) == ("rule", name) and name in BAZEL

    def may_lose(self, call):
        """Whether what stands for a rule is to be called in its place: it is a test, or some argument may be a dict or have a `select`."""
        is_odd = call.func.id in TESTS or has_output_as_input(call) or call.func.id == "test_suite" and not any(key.arg == "tests" for key in call.keywords)
        is_odd = is_odd or self.with_directories is not None and self.has_directories(nodes_of(call))
        return is_odd or bool(self.facts.workspace.left_out_of(self.file)) or any(
            not self.is_plain(key.value) if key.arg != "name" else self.values_lost(nodes_of(key.value)) for key in call.keywords)

    def is_plain(self, node):
        """Whether a value is shown, and is neither a dict nor has a `select`."""
        pending = [node]
        while pending:
            match pending.pop():
                case ast.Dict() | ast.DictComp():
                    return False
                case ast.Name(id=name):
                    if name not in self.locals and not self.facts.is_plain_global(self.file, name):
                        return False
                case ast.Call(func=ast.Name(id="glob")):
                    pass
                case ast.Call():
                    return False
                case of:
                    pending += [part for part in children_of(of) if isinstance(part, ast.expr)]
        return True

    def rule(self, call, name):
        """Calls what stands for a rule, which takes dicts and marks out of what it is given: in a BUILD file by the rule's own name."""
        if isinstance(call.func, ast.Name):
            self.uses_given[name] = PREFIX + name
        else:
            self.given(call.func, PREFIX + name)
        self.counts["a call of a rule"] += 1
        self.tell_lost(call)
        self.arguments(call)

    def tell_lost(self, call):
        """Gives a call what was made up of what it is given."""
        nodes = nodes_of(call)
        lost = self.lost or self.values_lost(nodes)
        if self.facts.workspace.left_out_of(self.file) and any(isinstance(it, ast.Name) and it.id == "glob" for it in nodes):
            lost = [*lost, "files: " + self.facts.workspace.left_out_of(self.file)]
        is_by_package = self.has_glob and bool(self.facts.workspace.left_out)
        if lost or is_by_package:
            _, end = self.span(call.func)
            at = self.text.index(b"(", end) + 1
            text = f"[{', '.join(quoted(it) for it in lost)}]" + (" + bzlq_files()" if is_by_package else "")
            self.uses_given |= {"bzlq_files": "bzlq_files"} if is_by_package else {}
            self.parts.append((at, at, f"bzlq_lost = {text}, ".encode()))

    def values_lost(self, nodes):
        """What values nodes name that aren't there."""
        found = {}
        # (what a statement calls, or a comprehension as one, gives no value)
        calls = [it.value.elt if isinstance(it.value, ast.ListComp) else it.value for it in nodes if isinstance(it, ast.Expr)]
        others = {id(it.func) for it in calls if isinstance(it, ast.Call)}
        for part in nodes:
            if isinstance(part, ast.Name) and part.id not in self.locals and part.id in self.file.globals and id(part) not in others:
                if told := self.facts.value_lost(self.file, part.id):
                    found[told] = None
        if self.file.existing and asks_for_rules(nodes):
            found[self.facts.lost_value(self.file, EXISTING)] = None
        if self.with_directories is not None and self.has_directories(nodes):
            found["files: directories of a glob"] = None
        return list(found)

    def has_directories(self, nodes):
        """Whether nodes have a glob that gives directories, or the name of one."""
        return any(gives_directories(it) or isinstance(it, ast.Name) and it.id in self.with_directories and it.id not in self.locals for it in nodes)

    def given(self, node, name):
        """Has a function of `@bzlq//:given.bzl` stand in the place of a name."""
        self.replace(*self.span(node), name)
        self.uses_given[name] = name

    def kind(self, node):
        """What a value is like, also where it is a global of this file, or of one that it loads."""
        return self.facts.kind_of_global(self.file, node.id) if isinstance(node, ast.Name) else kind_of(node)

    def takes(self, keyword):
        """Whether an attribute of this name takes a list or one value, by its name or by what it is given elsewhere."""
        if not keyword:
            return ""
        if keyword not in self.facts.taken:
            kind, source = type_of(keyword, Counter(), self.facts.everywhere)
            self.facts.taken[keyword] = "unknown" if source == "nothing" else "list" if kind.endswith("_list") else "text"
        return self.facts.taken[keyword]

    def select(self, node, wanted):
        """What takes a `select`'s dict: all branches of lists, else the default one, with marks for the conditions."""
        of = node.args[0] if node.args else None
        values = of.values if isinstance(of, ast.Dict) else [of.value] if isinstance(of, ast.DictComp) else []
        is_list = wanted == "list" or any(self.kind(value) in LISTS for value in values)
        self.given(node.func, "bzlq_select_list" if is_list else "bzlq_select")
        self.counts["a select"] += 1
        if isinstance(of, ast.Dict):
            for key, value in zip(of.keys, of.values):
                self.visit(key, "text") if key else None
                self.visit(value, "list" if is_list else wanted)
        else:
            self.arguments(node)

    def own_label(self, node):
        """Writes a label with the workspace's own name as one without, which names the same target; columns after it stay."""
        start, end = self.span(node)
        name = f"@{self.facts.workspace.name}".encode()
        if self.text[start + 1:end - 1] == node.value.encode():
            self.parts += [(start + 1, start + 1 + len(name), b""), (end, end, b" " * len(name))]
            self.counts["a label with the workspace's name"] += 1

    def escapes(self, node):
        """Writes out what an escape stands for that the language leaves out."""
        start, end = self.span(node)
        text = self.text[start:end].decode("utf-8", "surrogateescape")
        quote = text[-1:]
        if text[:1] not in "'\"" or text.startswith(quote * 3) or "\n" in text:
            return
        bare = text.replace("\\\\", "")
        if any(bare[i + 1:i + 2] not in ESCAPES for i in range(len(bare)) if bare[i] == "\\"):
            self.counts["an escape"] += 1
            value = node.value.replace("\\", "\\\\").replace(quote, f"\\{quote}").replace("\n", "\\n").replace("\r", "\\r")
            # (half a character has no bytes, and what isn't UTF-8 was read as something else: bq says where the escape is)
            if PLACEHOLDER not in value and not HALVES.search(value):
                self.parts.append((start, end, f"{quote}{value}{quote}".encode("utf-8")))


def gives_directories(node):
    """Whether a node is the argument by which a glob gives directories."""
    return isinstance(node, ast.keyword) and node.arg == "exclude_directories" and isinstance(node.value, ast.Constant) and node.value.value in (0, False)


def named_directories(text):
    """The globals of a file in whose values globs give directories; None where it has no such glob."""
    if b"exclude_directories" not in text:
        return None
    statements = [(node, nodes_of(node)) for node in parsed(text).body]
    if not any(gives_directories(it) for _, nodes in statements for it in nodes):
        return None
    return {name for node, nodes in statements if not isinstance(node, ast.FunctionDef) and any(map(gives_directories, nodes)) for name in bound_by(node)}


def declares_tests(file):
    """Whether a BUILD file calls one of Bazel's own rules of tests, or a suite of them."""
    return any((call.name in TESTS or call.name == "test_suite") and call.name not in file.globals for call in file.calls)


def names_own(facts, file):
    """Whether a file has labels with the name that the workspace gives itself."""
    own = facts.workspace.name
    return facts.workspace.is_own(own) and not file.path.startswith("external/") and any(label[0] == own.encode() for label in file.labels)


def may_change(facts, file):
    """Whether something in a file may be replaced; there is nothing in most BUILD files."""
    return not file.is_build or names_own(facts, file) or file.is_odd or bool(file.members) or declares_tests(file) or has_unknown_values(facts, file) or bool(refused_in(file)) \
        or file.path in ROOT_BUILDS and any(it.name == "glob" for it in file.calls)


def has_unknown_values(facts, file):
    """Whether a BUILD file names values that it doesn't show."""
    names = {name for name, _, _ in file.uses} | {call.name for call in file.calls if not call.is_statement and not call.is_native}
    names &= file.globals
    return bool(facts.workspace.left_out_of(file)) or any(not facts.is_plain_global(file, name) for name in names)


def all_patterns(node):
    """Whether an expression shows patterns alone that `glob` takes; Bazel takes any where it excludes."""
    return not any(isinstance(it, ast.Name | ast.Attribute) or isinstance(it, ast.Constant) and isinstance(it.value, str) and not is_pattern(it.value)
                   for it in nodes_of(node))


def is_pattern(text):
    """Whether a text is a pattern that bq takes."""
    return not any(part in ("", ".", "..") or "**" in part and part != "**" for part in text.split("/"))


def empty_texts(facts, file):
    """The names that a file loads for which an empty text stands."""
    found = set()
    for name in {name for _, _, clauses in file.loads for name in clauses}:
        origin = facts.origin(file, name)
        if origin and origin[0] == "stub":
            stub = facts.stub(*origin[1:])
            if not stub.makes_targets and not stub.is_called and value_for(stub) == '""':
                found.add(name)
    return found


def has_output_as_input(call):
    """Whether a genrule may have a file as an input and as an output, which what stands for it refuses, as Bazel does."""
    given = {key.arg: {it.value.rpartition(":")[2] for it in nodes_of(key.value) if isinstance(it, ast.Constant) and isinstance(it.value, str)}
             for key in call.keywords if key.arg in ("srcs", "outs")}
    return call.func.id == "genrule" and not given.get("srcs", set()).isdisjoint(given.get("outs", ()))


def refused_in(file):
    """What Bazel refuses in a BUILD file and bq takes: the line, its kind, and why."""
    empty = [(line, "a load of nothing", "load(..) names no symbol") for _, line, clauses in file.loads if not clauses] if file.is_build else []
    return sorted([*used_early(file), *odd_packages(file), *labels_twice(file), *empty])


def labels_twice(file):
    """The lists of labels in a BUILD file that have one twice, of Bazel's own rules. (Macros of others may take each once.)"""
    loaded = {name: label for label, _, clauses in file.loads for name in clauses}
    for line, rule, name, text in file.twice:
        is_known = loaded[rule].startswith("@") if rule in loaded else rule not in file.globals
        if is_known and rule in BAZEL and TYPES.get(rule, {}).get(name) == "label_list":
            yield line, "a label twice in a list", f"'{text}' is twice in '{name}' of {rule}"


def odd_packages(file):
    """The calls of `package(..)` that Bazel refuses: a second one, and one with a misspelt argument."""
    calls = sorted((it.line, [*it.keywords]) for it in file.calls if it.name == "package" and not it.is_native and not it.inside and it.is_statement)
    if not file.is_build or not calls or "package" in file.globals:
        return
    for line, keywords in calls:
        for name in keywords:
            if name not in OF_PACKAGES and (near := difflib.get_close_matches(name, OF_PACKAGES, 1, NEAR)):
                yield line, "a package with a misspelt argument", f"package has no argument '{name}' (did you mean '{near[0]}'?)"
    yield from ((line, "a package that is declared twice", f"package(..) is called a second time, after line {calls[0][0]}") for line, _ in calls[1:])


def used_early(file):
    """The uses of names in a BUILD file before they are loaded. (bq binds what is loaded first.)"""
    if not file.is_build or len(file.loads) < 1:
        return []
    lines = {}
    for _, line, clauses in file.loads:
        for name in clauses:
            lines.setdefault(name, line)
    used = [(it.line, it.name) for it in file.calls if not it.is_native] + [(line, name) for name, _, line in file.uses]
    early = {(line, name) for line, name in used if name in lines and line < lines[name]}
    return [(line, "a use before a load", f"{name} is used before it is loaded, in line {lines[name]}") for line, name in early]


def copied(facts, file):
    """The copy of a file, with how many parts of each kind it replaces; nothing for a file that stays as it is."""
    if file.broken or not may_change(facts, file):
        return None
    copy = Copy(facts, file, facts.workspace.content(file.path))
    try:
        text = copy.result()
    except Exception as error:  # (a file that nests too deep, or one of a form that wasn't thought of, stays as it is, and that is told)
        file.broken = why_not(error)
        facts.cannot("a file that isn't read here", file, 0)
        return None
    return (text, copy.counts) if text else None


def copies(facts, paths):
    """The copies of these files by their paths."""
    found = {path: copied(facts, file) for path, file in facts.workspace.files.items() if path in paths}
    return {path: it for path, it in found.items() if it}
