"""What a BUILD or .bzl file says, as far as its text shows it: loads, definitions, calls and their arguments.

Starlark is near enough to Python that Python's own parser reads it; nothing is run. What a value is like is guessed from its form.
"""
import ast
import bisect
import codecs
import os
import re
import warnings
from collections import defaultdict
from dataclasses import dataclass, field, replace

from bzlq.overlay.attribute_parts import changed_parts, global_parts, macro_parts, rule_parts
from bzlq.overlay.literals import constant
from bzlq.overlay.replacements import EXISTING, NAMES, REPLACED, asks_for_rules, label_in, labels_bound, records_in, replacement, struct_makers, structs_in
from bzlq.overlay.rule_sets import BAZEL
from bzlq.workspace.files import MAX_SIZE

# names that every file knows, besides the rules
BUILT_INS = set("""None True False all any bool dict enumerate fail int len list max min print range repr reversed select sorted str tuple
    type zip""".split())
BUILD_FUNCTIONS = set("glob package_name package licenses exports_files package_group".split())
# what Bazel knows and `bq` leaves out; and a function of Buck, which reads some of the same files, and that Bazel misses only where it is called
LEFT_OUT = set("""read_config abs analysis_test_transition apple_common apple_support aspect attr bytes cc_common config configuration_field coverage_common
    DefaultInfo depset distribs CcInfo exec_group existing_rule existing_rules float getattr hasattr hash InstrumentedFilesInfo
    JavaInfo java_common json Label module_extension native OutputGroupInfo platform_common proto provider ProtoInfo PyInfo PyRuntimeInfo
    repository_name repository_rule rule RunEnvironmentInfo set struct subpackages tag_class testing transition workspace dir
    CcToolchainConfigInfo CcSharedLibraryInfo DebugPackageInfo ErlangInfo macro module_name module_version repo_name symbolic_macro visibility""".split())

# other names that .bzl files have in some release of Bazel, or in Buck, and what providers are called
OTHER_NAMES = set("""android_common builtins cc_internal config_common exec_transition host_info java_internal materializer_rule objc_internal PACKAGE_NAME
    proto_common proto_common_do_not_use py_internal repository_ctx REPOSITORY_NAME rule_extension select subrule use_extension use_repo use_repo_rule""".split())
PROVIDER = re.compile(r"_*[A-Z][A-Z\d_]*[a-z]\w*|_builtins")


def is_provider(name):
    """Whether a name looks like that of a provider, which Bazel may bind."""
    return PROVIDER.fullmatch(name) is not None


# attributes that are numbers, and may be given True and False
TRISTATES = ("stamp", "legacy_create_init")
# what a BUILD file has where something in it is replaced: one of these texts, and then one of these patterns
ODD = [it.encode() for it in ("select", "genrule(", "{", "\\", "=== ", " / ", "to_list", "exclude", *TRISTATES, *NAMES)]
ODD_PATTERN = re.compile(rb"select\b|genrule\(|[{\\]|^=== |\b(?:%s|to_list|exclude|exclude_directories)\b|\b(?:%s)\s*=| / " % ("|".join(NAMES).encode(), "|".join(TRISTATES).encode()), re.M)
RELATIVE_LOAD = re.compile(rb"load\(\s*[\"'][^/@:]")
LABEL = re.compile(rb"[\"']@([\w.+~-]+)(?://([^:\"'\s]*)(?::([^\"'\s]+))?)?[\"']")
# how many attributes all rules of a file may have together
MOST_ATTRIBUTES = 200_000
# how many names are followed to what decides about a call
MOST_NAMES = 200
# what stands for a byte that Python doesn't take
PLACEHOLDER = "\x1a"
# a return that ends no line: in a comment or a text it is a byte as any other
LONE_RETURN = re.compile(r"\r(?!\n)")
IDENTIFIER = re.compile(r"[A-Za-z_]\w*", re.ASCII)
# a comprehension, or a loop (the text comes first, so that most of a file is passed over quickly)
FOR = re.compile(rb"for(?<!\wfor)\b")


# what is noted of a member of a value, which bq has of none
MEMBER = "a member that isn't called"
# how often a file is read again for its structs
MOST_READ_AGAIN = 4
# the parts of a `File` that its tree fills
FILLED = """loads defs aliases natives made attributes constants macros tests kinds called plain statements globals calls uses members member_calls loaded_members faults decisions
    twice""".split()


# what leaves a function, or a turn of a loop, and what it stands in
LEAVING, BLOCKS = (ast.Return, ast.Continue, ast.Break), (ast.FunctionDef, ast.If, ast.For)


class Either:
    """The names of two sets."""

    def __init__(self, one, two):
        self.one, self.two = one, two

    def __contains__(self, name):
        return name in self.one or name in self.two


def children_of(node):
    """The nodes right in a node, but for those that have nothing in them, such as the signs of operators: as `ast.iter_child_nodes`, and quicker."""
    found = []
    for name in node._fields:
        value = getattr(node, name, None)
        if value.__class__ is list:
            found += [part for part in value if isinstance(part, ast.AST) and part._fields]
        elif isinstance(value, ast.AST) and value._fields:
            found.append(value)
    return found


def nodes_of(node):
    """A node and all in it, in the order of `ast.walk`."""
    found = [node]
    for it in found:
        found += children_of(it)
    return found


def passed(value):
    """The name whose entries a `**` passes on: its own, or the first that is given to a call, as in `**with_tags(attrs)`."""
    if isinstance(value, ast.Call) and value.args:
        value = value.args[0]
    return value.id if isinstance(value, ast.Name) else None


@dataclass
class Call:
    """A call of a name (`f(..)`) or of a member of `native`."""

    name: str
    is_native: bool
    line: int
    inside: str  # the function whose body it is in; empty at the top level
    keywords: dict  # each keyword's kinds of values
    splats: list  # the names given with `**`; None for other values
    positional: list  # kinds
    is_statement: bool
    wanted: str  # what the place takes: a kind, or empty
    passed: dict  # each keyword that is given a name as it is
    target: str  # the text that it gives as `name`
    unnamed: list = field(default_factory=list)  # the names that it is given as they are without a keyword, and empty texts for other values


@dataclass
class Def:
    """The head of a function."""

    parameters: list
    rest: str  # the name after `**`; empty without one
    defaults: dict  # what the defaults of parameters are like


@dataclass
class Statement:
    """A statement at the top level: its lines, and the names that it binds."""

    first: int
    last: int
    names: list
    is_def: bool


@dataclass
class File:
    """What a file says."""

    path: str
    is_build: bool
    broken: str = ""
    loads: list = field(default_factory=list)  # (label, line, {local: symbol})
    defs: dict = field(default_factory=dict)
    aliases: dict = field(default_factory=dict)  # a global that is another name
    natives: dict = field(default_factory=dict)  # a global that is a member of `native`: a rule of Bazel's own
    made: dict = field(default_factory=dict)  # a global that a call of `rule` gives: what it shows of the rule's attributes (attribute_parts.py)
    attributes: dict = field(default_factory=dict)  # another global of a .bzl file: what it shows of attributes that rules may have
    constants: dict = field(default_factory=dict)  # a global of a .bzl file, and a tuple of its value, where an attribute may have that as its default
    macros: dict = field(default_factory=dict)  # a global that a call of `macro` gives: its function, and what it shows of the macro's attributes
    size: int = 0
    tests: set = field(default_factory=set)  # those of them that are tests
    kinds: dict = field(default_factory=dict)  # what the value of a global is like
    called: set = field(default_factory=set)  # globals whose values are calls
    plain: set = field(default_factory=set)  # globals whose values have neither a name nor a call but of `glob`
    statements: list = field(default_factory=list)
    globals: set = field(default_factory=set)
    calls: list = field(default_factory=list)
    uses: list = field(default_factory=list)  # (name, how it is used, line)
    members: list = field(default_factory=list)  # (name, member, line, whether it is called)
    member_calls: list = field(default_factory=list)  # (name, member, keywords, line), of those that are statements
    loaded_members: list = field(default_factory=list)  # of a .bzl file: (name, members, line), for members, and members of these, of a name that it loads
    faults: list = field(default_factory=list)  # (line, what bq leaves out)
    decisions: list = field(default_factory=list)  # what decides which calls are made: (its names, and parameters in parentheses, the function around, the first of the calls, the one after the last, line)
    twice: list = field(default_factory=list)  # (line, rule or macro, attribute, text) of a list in a call of a BUILD file that has a label twice
    labels: list = field(default_factory=list)  # the labels of other repositories that its text names, each as (repository, package, name)
    existing: list = field(default_factory=list)  # the lines of calls that ask which rules there are
    structs: tuple = (frozenset(), frozenset())  # the fields of structs that it makes, and names whose members aren't such
    records: dict = field(default_factory=dict)  # a global that is a struct of data, or has such structs: their fields
    is_odd: bool = False  # whether its text has what a copy may have something else for


def in_full(text, package):
    """The label that a text of a file in this package is."""
    if not text.startswith("//"):
        return f"//{package}:{text.removeprefix(':')}"
    return text if ":" in text else f"{text}:{text.rpartition('/')[2]}"


def is_label(text):
    """Whether a text begins as a label does."""
    return text.startswith(("//", ":", "@"))


def joined(kinds):
    """The kind of a list whose elements are of these kinds."""
    if kinds & {"dict", "list", "strings", "labels"}:
        return "other"
    if "label" in kinds:
        return "labels"
    return "strings" if "string" in kinds else "list"


def first_known(kinds):
    """The kind that says most of a value that is like one of these."""
    return next((kind for kind in ("labels", "strings", "list", "label", "string", "bool", "int", "bit", "dict", "none") if kind in kinds), "other")


def kind_of_constant(value):
    """What a constant is like."""
    if isinstance(value, str):
        return "label" if is_label(value) else "string"
    if value is None:
        return "none"
    if isinstance(value, bool):
        return "bool"
    if isinstance(value, int):
        return "bit" if value in (0, 1) else "int"
    return "other"


def kind_of(node):
    """What a value is like: string, label, strings, labels, list, bit, int, bool, dict, none, or other where the form doesn't show it."""
    if isinstance(node, ast.Constant):
        return kind_of_constant(node.value)
    match node:
        case ast.UnaryOp(op=ast.USub()):
            return "int"
        case ast.List(elts=parts) | ast.Tuple(elts=parts):
            return joined({kind_of(part) for part in parts}) if parts else "list"
        case ast.ListComp(elt=part):
            return joined({kind_of(part)})
        case ast.Dict() | ast.DictComp():
            return "dict"
        case ast.BinOp(op=ast.Add() | ast.Mod()):
            return kind_of_sum(node)
        case ast.IfExp(body=body):
            return kind_of(body)
        case ast.Call(func=ast.Name(id="select") | ast.Attribute(attr="with_or"), args=[ast.Dict(values=branches), *_]):
            return first_known({kind_of(branch) for branch in branches})
        case ast.Call(func=ast.Name(id="select"), args=[ast.DictComp(value=branch), *_]):
            return kind_of(branch)
        case ast.Call(func=ast.Name(id="glob") | ast.Attribute(attr="glob")):
            return "labels"
        case ast.Call() if label_in(node):
            return "label"
        case ast.Call(func=ast.Attribute(value=of, attr="to_list"), args=[]):
            return kind_of(of)
        case ast.Call(func=ast.Name(id="depset"), args=args):
            return kind_of(args[0]) if args else "list"
        case ast.Call(func=ast.Attribute(value=of, attr="format" | "strip" | "replace" | "lower" | "upper" | "join")):
            return kind_of(of) if isinstance(of, ast.Constant) else "string"
        case _:
            return "other"


def kind_of_sum(node):
    """What a sum, or a text with `%`, is like. (Generated files have long ones, whose parts lie one in another: each is looked at once, and
    says from then on what it is like.)"""
    parts = []
    while isinstance(node, ast.BinOp) and isinstance(node.op, ast.Add | ast.Mod) and not hasattr(node, "like"):
        parts.append(node)
        node = node.left
    kind = node.like if isinstance(node, ast.BinOp) and hasattr(node, "like") else kind_of(node)
    for it in reversed(parts):
        kind = it.like = first_known({kind, kind_of(it.right)}) if isinstance(it.op, ast.Add) else kind
    return kind


class Reader(ast.NodeVisitor):
    """Walks a file's tree. `locals` are the names that the function around binds."""

    def __init__(self, file):
        self.file = file
        self.inside = ""
        self.all_names = file.globals
        self.own_names(set())
        self.bound = {}
        self.binds = {}  # the names that the function around binds, with those in their values
        self.makers = set()  # parameters whose members declare targets
        self.labels = set()  # names that the function around binds to labels
        self.parameters = set()  # those of the function around
        self.leaving = []  # the lines in it that leave it, or the turn of a loop
        self.leaves = []  # the conditions on that, each with how many calls come before
        self.wanted = ""

    def own_names(self, names):
        """Goes into a function that binds these names."""
        self.locals = names
        # (`all_names` is asked for each node)
        self.all_names = Either(names, self.file.globals) if names else self.file.globals

    def left_out(self, node, what):
        """Notes something that bq leaves out."""
        self.file.faults.append((node.lineno, what))

    def known(self, name):
        """Whether the file has a name."""
        return name in self.all_names

    def wanting(self, kind, node):
        """Reads a node in a place that takes this."""
        before, self.wanted = self.wanted, kind
        self.visit(node)
        self.wanted = before

    def generic_visit(self, node):
        """Reads what is in a node; a constant says nothing by itself."""
        for part in children_of(node):
            if part.__class__ is not ast.Constant:
                self.visit(part)

    def visit_Constant(self, node):
        """A constant says nothing by itself. (Without this Python looks for methods of older names.)"""

    def visit(self, node):
        """Reads a node, or what stands for it."""
        found = replacement(node, self.all_names, self.labels, self.file.structs) if isinstance(node, REPLACED) else None
        if found:
            for part in found.pieces:
                if isinstance(part, ast.AST):
                    self.wanting(found.wanted, part)
        else:
            super().visit(node)

    def visit_FunctionDef(self, node):
        """Reads a function at the top of a file."""
        if self.inside:
            self.left_out(node, "a function in a function")
            return
        for default in [*node.args.defaults, *node.args.kw_defaults]:
            if default is not None:
                self.visit(default)
        nodes = nodes_of(node)
        self.inside, self.makers, self.labels = node.name, makers_of(node, nodes), labels_bound(nodes)
        self.own_names(names_bound(node, nodes))
        parameters = {it.arg for it in nodes_of(node.args) if isinstance(it, ast.arg)}
        self.bound = {}
        for it in nodes:
            if isinstance(it, ast.Assign) and len(it.targets) == 1 and isinstance(it.targets[0], ast.Name) and it.targets[0].id not in parameters:
                self.bound.setdefault(it.targets[0].id, kind_of(it.value))
        self.binds = values_bound(nodes, bool(self.file.existing))
        left = [part.lineno for it in nodes if isinstance(it, BLOCKS) for part in [*it.body, *getattr(it, "orelse", ())] if isinstance(part, LEAVING)]
        self.parameters, self.leaving, self.leaves = parameters, sorted(left), []
        for part in node.body:
            self.visit(part)
        for tests, first in self.leaves:
            self.decide(tests, first)
        self.parameters, self.leaving = set(), []
        self.inside, self.makers, self.labels, self.bound, self.binds = "", set(), set(), {}, {}
        self.own_names(set())

    def visit_Lambda(self, node):
        """Notes a lambda."""
        self.left_out(node, "lambda")

    def visit_Expr(self, node):
        """Reads an expression that is a statement: mostly a call."""
        match node.value:
            case ast.Call():
                self.call(node.value, True)
            case ast.ListComp(elt=ast.Call() as call):
                self.in_scope(node.value, call)
            case ast.IfExp(test=test):
                self.deciding([test], lambda: self.wanting("", node.value))
            case ast.BoolOp(values=values):
                self.deciding(values[:-1], lambda: self.wanting("", node.value))
            case _:
                self.wanting("", node.value)

    def deciding(self, parts, read):
        """Reads calls that these parts decide about."""
        first = len(self.file.calls)
        read()
        self.decide(parts, first)

    def decide(self, parts, first):
        """Notes that these parts decide about the calls from this number on."""
        if len(self.file.calls) > first and (names := self.names_in(parts)):
            self.file.decisions.append((names, self.inside, first, len(self.file.calls), parts[0].lineno))

    def names_in(self, parts):
        """The global names in these parts, also by what the function around binds its own names to; and its parameters, in parentheses."""
        found, pending = {}, [it for part in parts for it in names_used(nodes_of(part), bool(self.file.existing))]
        while pending and len(found) < MOST_NAMES:
            name = pending.pop()
            if name not in found:
                found[name] = name not in self.locals and name in self.file.globals or name == EXISTING
                pending += self.binds.get(name, ()) if name in self.locals else ()
        return sorted([name for name, is_global in found.items() if is_global] + [f"({name})" for name in found if name in self.parameters])

    def visit_Call(self, node):
        """Reads a call whose value is used."""
        self.call(node, False)

    def call(self, node, is_statement):
        """Reads a call."""
        match node.func:
            case ast.Name(id="load") if not self.inside:
                return
            case ast.Name(id="select"):
                self.left_out(node, "select")
            case ast.Name(id="Label") if label_in(node) and not self.known("Label"):
                pass
            case ast.Name(id=name):
                self.named_call(node, name, False, is_statement)
            case ast.Attribute(value=ast.Name(id="native"), attr=name) if not self.known("native"):
                self.named_call(node, name, True, is_statement)
            case ast.Attribute(value=ast.Name(id=name), attr=member) if name in self.makers and has_name(node):
                self.named_call(node, member, True, is_statement)
            case ast.Attribute(value=ast.Name(id=name), attr=member) if name not in self.locals:
                self.member(node, name, member, True)
                if is_statement:
                    self.file.member_calls.append((name, member, {key.arg: kind_of(key.value) for key in node.keywords if key.arg}, node.lineno))
            case ast.Attribute(value=of):
                if label_in(of):
                    self.left_out(node, "a member of a label")
                self.wanting("", of)
            case _:
                self.visit(node.func)
        for part in node.args:
            self.wanting("dict" if isinstance(node.func, ast.Name) and node.func.id == "dict" else "", part)
        for keyword in node.keywords:
            self.wanting(keyword.arg or "", keyword.value)

    def kind_here(self, node):
        """What a value is like; of a variable that this function binds, what it binds it to first."""
        kinds = set()
        while isinstance(node, ast.BinOp) and isinstance(node.op, ast.Add):
            kinds.add(self.kind_here(node.right))
            node = node.left
        kinds.add(self.bound.get(node.id, "other") if isinstance(node, ast.Name) else kind_of(node))
        return first_known(kinds)

    def labels_twice(self, node):
        """The attributes that a call gives a list with a label twice, as its text shows it, each with the second one."""
        for key in node.keywords:
            parts = key.value.elts if isinstance(key.value, ast.List) else ()
            texts = [it.value for it in parts if isinstance(it, ast.Constant) and isinstance(it.value, str)]
            seen = set()
            for text in texts if len(texts) > 1 else ():
                label = text if text.startswith("@") else in_full(text, os.path.dirname(self.file.path))
                if label in seen:
                    yield key.arg, text
                    break
                seen.add(label)

    def named_call(self, node, name, is_native, is_statement):
        """Notes a call of a name."""
        if name in self.locals and not is_native:
            return
        keywords = {key.arg: self.kind_here(key.value) for key in node.keywords if key.arg}
        self.file.twice += [(node.lineno, name, *it) for it in self.labels_twice(node)] if self.file.is_build and not is_native else []
        splats = []
        for key in node.keywords:
            if key.arg is None:
                splats.append(passed(key.value))
                keywords.update(entries(key.value))
        starred = [part for part in node.args if isinstance(part, ast.Starred)]
        positional = [kind_of(part) for part in node.args if part not in starred]
        names = {key.arg: key.value.id for key in node.keywords if key.arg and isinstance(key.value, ast.Name)}
        unnamed = [getattr(part, "id", "") for part in node.args] if not starred and any(isinstance(part, ast.Name) for part in node.args) else []
        self.file.calls.append(Call(name, is_native, node.lineno, self.inside, keywords, splats, positional, is_statement, self.wanted, names, target_of(node), unnamed))

    def member(self, node, name, member, is_called):
        """Notes that a member of a name is used."""
        if name == "native":
            return
        if not self.known(name) and name in LEFT_OUT:
            self.left_out(node, f"{name}.{member}")
        else:
            self.file.members.append((name, member, node.lineno, is_called))

    def visit_Attribute(self, node):
        """Reads a member that isn't called."""
        if isinstance(node.value, ast.Name) and node.value.id == "native" and not self.known("native") and node.attr in BAZEL:
            self.file.calls.append(Call(node.attr, True, node.lineno, self.inside, {}, [], [], False, "", {}, ""))
            return
        self.left_out(node, MEMBER)
        self.loaded_member(node)
        if isinstance(node.value, ast.Name):
            self.member(node, node.value.id, node.attr, False)
        else:
            self.visit(node.value)

    def loaded_member(self, node):
        """Notes a member of a name that a .bzl file loads, or a member of such a member."""
        members, inner = [], node
        while isinstance(inner, ast.Attribute):
            members.append(inner.attr)
            inner = inner.value
            inner.is_inner = True
        if not self.file.is_build and not hasattr(node, "is_inner") and isinstance(inner, ast.Name) and inner.id not in self.locals:
            if any(inner.id in clauses for _, _, clauses in self.file.loads):
                self.file.loaded_members.append((inner.id, members, node.lineno))

    def visit_Name(self, node):
        """Notes the use of a name that isn't a local one."""
        if isinstance(node.ctx, ast.Load) and node.id not in self.locals:
            self.file.uses.append((node.id, self.wanted, node.lineno))

    def visit_BinOp(self, node):
        """Reads a sum or the like, whose sides take what they are like."""
        wanted, rights = self.wanted, []
        while True:
            known = [kind for kind in (kind_of(node.left), kind_of(node.right)) if kind in ("string", "label", "strings", "labels", "list", "dict")]
            wanted = known[0] if known else wanted
            wanted = "string" if wanted == "label" else wanted
            rights.append((wanted, node.right))
            node = node.left
            # (the parts of a long sum lie one in another; what is replaced is read by `visit`)
            if not isinstance(node, ast.BinOp) or replacement(node, self.all_names, self.labels, self.file.structs):
                break
        self.wanting(wanted, node)
        for wanted, right in reversed(rights):
            self.wanting(wanted, right)

    def visit_comprehension(self, node):
        """Reads a clause of a comprehension."""
        self.wanting("list", node.iter)
        for part in node.ifs:
            self.wanting("", part)

    def visit_ListComp(self, node):
        """Reads a comprehension."""
        self.in_scope(node)

    def visit_DictComp(self, node):
        """Reads a comprehension."""
        self.in_scope(node)

    def in_scope(self, node, statement=None):
        """Visits a comprehension; with `statement`, a call whose value nobody takes, as `[rule(..) for ..]` has it."""
        before = self.locals
        self.own_names(before | {part.id for clause in node.generators for part in ast.walk(clause.target) if isinstance(part, ast.Name)})
        parts = [part for clause in node.generators for part in (clause.iter, *clause.ifs)]
        if statement:
            self.deciding(parts, lambda: self.call(statement, True))
            for clause in node.generators:
                self.visit(clause)
        else:
            self.deciding(parts, lambda: self.generic_visit(node))
        self.own_names(before)

    def visit_For(self, node):
        """Reads a loop."""
        self.wanting("list", node.iter)
        self.deciding([node.iter], lambda: self.all_of(node.body))

    def visit_If(self, node):
        """Reads a condition, with those of each `elif`, which lie one in another."""
        chain = [node]
        while len(chain[-1].orelse) == 1 and isinstance(chain[-1].orelse[0], ast.If):
            chain.append(chain[-1].orelse[0])
        tests = [it.test for it in chain]
        self.all_of(tests)
        self.deciding(tests, lambda: self.all_of([part for it in chain for part in it.body] + chain[-1].orelse))
        at = bisect.bisect_left(self.leaving, node.body[0].lineno)
        if at < len(self.leaving) and self.leaving[at] <= node.end_lineno:
            self.leaves.append((tests, len(self.file.calls)))

    def all_of(self, parts):
        """Reads statements, or expressions."""
        for part in parts:
            self.visit(part)

    def visit_Subscript(self, node):
        """Reads an element of a list or dict."""
        self.wanting("dict", node.value)
        self.wanting("", node.slice)

    def visit_List(self, node):
        """Reads a list, whose elements are mostly texts."""
        for part in node.elts:
            self.wanting("string", part)

    visit_Tuple = visit_List


def target_of(call):
    """The text that a call gives as `name`; empty where it gives none, or another value."""
    given = [key.value for key in call.keywords if key.arg == "name"]
    return given[0].value if given and isinstance(given[0], ast.Constant) and isinstance(given[0].value, str) else ""


def has_name(call):
    """Whether a call gives a `name`."""
    return any(key.arg == "name" for key in call.keywords)


def makers_of(function, nodes):
    """The parameters of a function whose members are called as rules: `def targets(rules): rules.cc_library(name = ..)`. `nodes` are those in it."""
    arguments = function.args
    parameters = {it.arg for it in [*arguments.posonlyargs, *arguments.args, *arguments.kwonlyargs]}
    called = (it for it in nodes if isinstance(it, ast.Call) and isinstance(it.func, ast.Attribute) and isinstance(it.func.value, ast.Name))
    return {it.func.value.id for it in called if it.func.value.id in parameters and has_name(it)}


def names_bound(function, nodes):
    """The names that a function binds: parameters, loop variables and what is assigned to. `nodes` are those in it."""
    arguments = function.args
    found = {it.arg for it in [*arguments.posonlyargs, *arguments.args, *arguments.kwonlyargs]}
    found |= {it.arg for it in (arguments.vararg, arguments.kwarg) if it}
    return found | {it.id for it in nodes if isinstance(it, ast.Name) and isinstance(it.ctx, ast.Store)}


def names_used(nodes, may_ask):
    """The names in nodes. `may_ask` says whether they may ask which rules there are."""
    found = [it.id for it in nodes if isinstance(it, ast.Name)]
    return [*found, EXISTING] if may_ask and asks_for_rules(nodes) else found


def values_bound(nodes, may_ask):
    """The names that are bound in these nodes, each with the names in what it is bound to, or taken from."""
    found = {}
    for node in nodes:
        match node:
            case ast.Assign(targets=targets, value=value):
                pass
            case ast.AugAssign(target=target, value=value) | ast.For(target=target, iter=value):
                targets = [target]
            case _:
                continue
        names = set(names_used(nodes_of(value), may_ask))
        for name in {it.id for target in targets for it in nodes_of(target) if isinstance(it, ast.Name)}:
            found.setdefault(name, set()).update(names)
    return found


def entries(node):
    """The keys that a dict's form shows, with the kinds of their values."""
    match node:
        case ast.Dict(keys=keys, values=values):
            return {key.value: kind_of(value) for key, value in zip(keys, values) if isinstance(key, ast.Constant) and isinstance(key.value, str)}
        case ast.Call(func=ast.Name(id="dict"), keywords=keywords):
            return {key.arg: kind_of(key.value) for key in keywords if key.arg}
        case _:
            return {}


def load_of(node):
    """The label, line and clauses of a load statement; what names no symbol is left out."""
    texts = [part.value for part in node.args if isinstance(part, ast.Constant) and isinstance(part.value, str)]
    if not texts:
        return None
    clauses = {symbol: symbol for symbol in texts[1:] if IDENTIFIER.fullmatch(symbol)}
    named = ((key.arg, key.value.value) for key in node.keywords if key.arg and isinstance(key.value, ast.Constant))
    clauses.update({name: symbol for name, symbol in named if isinstance(symbol, str) and IDENTIFIER.fullmatch(symbol)})
    return texts[0], node.lineno, clauses


# what may put a key into a dict
SETTING = (ast.Assign, ast.AugAssign, ast.Call)


def set_keys(function):
    """Keys that a function puts into dicts by name: `kwargs["deps"] = ..`, `kwargs.setdefault("deps", ..)`, `.update({..})`."""
    found = {}
    for node in nodes_of(function):
        if not isinstance(node, SETTING):
            continue
        match node:
            case ast.Assign(targets=[ast.Subscript(value=ast.Name(id=name), slice=ast.Constant(value=str() as key))], value=value):
                found.setdefault(name, {})[key] = kind_of(value)
            case ast.AugAssign(target=ast.Subscript(value=ast.Name(id=name), slice=ast.Constant(value=str() as key)), value=value):
                found.setdefault(name, {})[key] = kind_of(value)
            case ast.Call(func=ast.Attribute(value=ast.Name(id=name), attr="setdefault"), args=[ast.Constant(value=str() as key), value]):
                found.setdefault(name, {})[key] = kind_of(value)
            case ast.Call(func=ast.Attribute(value=ast.Name(id=name), attr="update"), args=[value], keywords=keywords):
                found.setdefault(name, {}).update(entries(value))
                found[name].update({key.arg: kind_of(key.value) for key in keywords if key.arg})
            case ast.Assign(targets=[ast.Name(id=name)], value=ast.Dict() | ast.Call(func=ast.Name(id="dict")) as value):
                found.setdefault(name, {}).update(entries(value))
    return found


def defaults_of(arguments):
    """What the defaults of a function's parameters are like."""
    positional = [*arguments.posonlyargs, *arguments.args]
    given = [*zip(positional[len(positional) - len(arguments.defaults):], arguments.defaults), *zip(arguments.kwonlyargs, arguments.kw_defaults)]
    return {parameter.arg: kind_of(value) for parameter, value in given if value is not None}


def bound_by(node):
    """The names that a statement at the top level binds."""
    match node:
        case ast.FunctionDef(name=name):
            return [name]
        case ast.Assign(targets=targets):
            return [part.id for target in targets for part in nodes_of(target) if isinstance(part, ast.Name) and isinstance(part.ctx, ast.Store)]
        case ast.AugAssign(target=ast.Name(id=name)):
            return [name]
        case _:
            return []


UNSHOWN = (ast.Dict, ast.DictComp, ast.Call, ast.Name)


def is_plain(node):
    """Whether a value is shown, and is no dict."""
    return not any(isinstance(it, UNSHOWN) and getattr(getattr(it, "func", it), "id", "") != "glob" for it in nodes_of(node))


def bind(file, part, value):
    """Has a file say what an assignment binds a name to; gives how many attributes that shows of a rule."""
    name = part.id
    file.globals.add(name)
    file.kinds[name] = kind_of(value)
    if is_plain(value):
        file.plain.add(name)
    if isinstance(value, ast.Call):
        file.called.add(name)
    if isinstance(value, ast.Name):
        file.aliases[name] = value.id
    if isinstance(value, ast.Attribute) and isinstance(value.value, ast.Name) and value.value.id == "native":
        file.natives[name] = value.attr
    if found := macro_parts(value):
        file.macros[name] = found
    shown = rule_parts(value)
    if shown is None:
        if not file.is_build and isinstance(part.ctx, ast.Store):
            may_be_of_rules(file, name, value)
        return 0
    file.made[name] = shown
    # (Bazel has a rule of such a name be a test, and no other one)
    if name.endswith("_test") or any(key.arg == "test" and getattr(key.value, "value", False) is True for key in value.keywords):
        file.tests.add(name)
    return len(shown)


def top_level(file, tree, may_bind):
    """Has a file say what its statements bind. `may_bind` says whether an expression of the file may bind names, as a comprehension does."""
    left = MOST_ATTRIBUTES
    for node in tree.body:
        file.statements.append(Statement(node.lineno, node.end_lineno, bound_by(node), isinstance(node, ast.FunctionDef)))
        change(file, node)
        match node:
            case ast.Expr(value=ast.Call(func=ast.Name(id="load")) as call):
                if found := load_of(call):
                    file.loads.append(found)
                    file.globals |= set(found[2])
            case ast.FunctionDef(name=name, args=arguments):
                parameters = [it.arg for it in [*arguments.posonlyargs, *arguments.args, *arguments.kwonlyargs]]
                file.defs[name] = Def(parameters, arguments.kwarg.arg if arguments.kwarg else "", defaults_of(arguments))
                file.globals.add(name)
            case ast.Assign(targets=targets, value=value):
                for part in (part for target in targets for part in nodes_of(target) if isinstance(part, ast.Name)):
                    left -= bind(file, part, value)
                    if left < 0:
                        raise ValueError(f"its rules have more than {MOST_ATTRIBUTES:,} attributes")
            case ast.Expr() if not may_bind:
                pass
            case _:
                file.globals.update(part.id for part in nodes_of(node) if isinstance(part, ast.Name) and isinstance(part.ctx, ast.Store))


def may_be_of_rules(file, name, value):
    """Has a file say what a global shows of attributes, and of a default."""
    shown = global_parts(value)
    if shown is not None:
        file.attributes[name] = shown
    if known := constant(value):
        file.constants[name] = known


def change(file, node):
    """Has a file say no more than is sure of a global whose value a statement at the top changes."""
    name, shown = changed_parts(node)
    file.constants.pop(name, None)
    if name in file.attributes:
        file.attributes[name] = [*file.attributes[name], *shown]


def one_by_one(error):
    """What stands for bytes that are no UTF-8: as many single ones, so that columns stay."""
    return PLACEHOLDER * (error.end - error.start), error.end


codecs.register_error("bzlq_one_by_one", one_by_one)


def parsed(text):
    """The tree of a text. What bq takes in comments and texts, and Python takes nowhere, has something of the same length in its place."""
    decoded = text.decode("utf-8", "bzlq_one_by_one").replace("\x0c", " ").replace("\0", PLACEHOLDER)
    if "\r" in decoded:
        decoded = LONE_RETURN.sub(" ", decoded)
    with warnings.catch_warnings():
        warnings.simplefilter("ignore")
        return ast.parse(decoded)


def has_odd_name(tree):
    """Whether a name is none of Starlark's, which are ASCII."""
    return any(isinstance(name, str) and not name.isascii() for node in ast.walk(tree) for name in map(vars(node).get, ("id", "arg", "attr", "name")))


def read(path, text):
    """What a file says. Whatever its bytes are, this ends: a file that can't be read here says why (`broken`), and nothing else."""
    name = path.rpartition("/")[2]
    labels = sorted(set(LABEL.findall(text))) if b"@" in text else []
    is_build = not name.endswith(".bzl")
    is_odd = is_build and bool(any(it in text for it in ODD) and ODD_PATTERN.search(text) or RELATIVE_LOAD.search(text))
    file = File(path, is_build, size=len(text), labels=labels, is_odd=is_odd)
    try:
        if is_build and len(text) > MAX_SIZE:
            raise ValueError(f"it has more than {MAX_SIZE:,} bytes")
        tree = parsed(text)
        if not text.isascii() and has_odd_name(tree):
            raise ValueError("a name isn't ASCII")
        if b"existing_rules" in text:
            file.existing = [it.lineno for node in tree.body for it in asks_for_rules(nodes_of(node))]
        makers = struct_makers(tree) if not is_build and b"struct(" in text else []
        file = filled(file, tree, b":=" in text or bool(FOR.search(text)), makers)
    except Exception as error:  # (Python's parser has limits of its own; and no file is to end the reading of the others)
        # (what was read until then is no more sure than nothing)
        file = File(path, is_build, why_not(error), size=len(text), labels=labels, is_odd=is_odd)
    return file


def why_not(error):
    """The line, and why a file can't be read here."""
    if isinstance(error, RecursionError | MemoryError):
        return "0: it nests too deep to be read here"
    if isinstance(error, SyntaxError | ValueError):
        return f"{getattr(error, 'lineno', 0) or 0}: {getattr(error, 'msg', error)}"
    return f"0: it can't be read here ({type(error).__name__}: {error})"


def filled(file, tree, may_bind, makers):
    """A file with what its tree says. Structs of these functions are read as dicts; where something else of such a function is left out, it is not among
    them, and all is read again."""
    for left in range(MOST_READ_AGAIN, -1, -1):
        structs = structs_in(tree, makers) if makers else (frozenset(), frozenset())
        found = replace(file, structs=structs, records=records_in(makers) if structs[0] else {}, **{name: type(it)() for name, it in vars(file).items() if name in FILLED})
        fill(found, tree, may_bind)
        lines = sorted(line for line, _ in found.faults)
        sure = [it for it in makers if bisect.bisect_left(lines, it.lineno) == bisect.bisect_right(lines, it.end_lineno)]
        if len(sure) == len(makers):
            break
        makers = sure if left > 1 else []
    return found


def fill(file, tree, may_bind):
    """Has a file say what its tree does."""
    top_level(file, tree, may_bind)
    reader = Reader(file)
    for node in tree.body:
        reader.visit(node)
    calls = defaultdict(list)
    for call in file.calls:
        calls[call.inside].append(call)
    for node in tree.body:
        if isinstance(node, ast.FunctionDef):
            keys = set_keys(node)
            for call in calls[node.name]:
                for splat in call.splats:
                    call.keywords = {**keys.get(splat, {}), **call.keywords}
