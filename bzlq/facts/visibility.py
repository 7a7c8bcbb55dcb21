"""Who may depend on a target, by Bazel's rules: takes the facts of a workspace and the texts of its BUILD files, gives of each target where its
visibility is said, what it says, and which of its labels lets a package in.

What `bq` accepts without effect (`default_visibility` of a package, `packages` of a package group, `visibility` of files) is read from the texts.
A value that a text doesn't show is given as None, until `evaluated` has what a run says of it.
"""
import ast
import re
from dataclasses import dataclass, field

from bzlq.overlay.package_defaults import literal

PUBLIC, PRIVATE = ("//visibility:public", "//visibility:legacy_public"), "//visibility:private"
NATIVE = re.compile(r"\bnative\.(?:exports_files|package_group)\b")
# the arguments that count, in their places
FUNCTIONS = {"package": ("default_visibility",), "package_group": ("name", "packages"), "exports_files": ("srcs", "visibility")}


@dataclass
class Said:
    """What a target's visibility is: its labels, or None where it isn't known; the place that says so, and how."""

    labels: list | None
    line: int
    how: str

    def text(self):
        """The labels, as a sentence says them."""
        if self.labels is None:
            return self.how
        shown = [it for it in self.labels if not it.endswith(PRIVATE)]
        text = f"visible to {', '.join(shown)}" if shown else "private"
        return text + (f" {self.how}" if self.how else "")


@dataclass
class Texts:
    """What the texts of a package say: its default, its groups and its files that are exported, each with its line."""

    default: tuple | None = None
    groups: dict = field(default_factory=dict)
    exported: dict = field(default_factory=dict)
    has_more: bool = False  # whether files may be exported by what isn't shown


class Visibility:
    """`text_of` gives the text of a file, `evaluated` the values of the expressions of a file that don't show theirs: by their places in it."""

    def __init__(self, facts, text_of, evaluated=None):
        self.facts, self.text_of, self.evaluated = facts, text_of, evaluated or {}
        self.packages = {}
        self.hidden = {}  # the expressions that weren't evaluated: their texts, by the file
        self.macros = {label for label, it in facts.modules.items() if label.endswith(".bzl") and NATIVE.search(text_of(it.file))}
        self.files = {label.rpartition(":")[0]: it for label, it in facts.modules.items() if label.endswith((":BUILD", ":BUILD.bazel"))}

    def texts(self, package):
        """What the text of a package's BUILD file says."""
        if package not in self.packages:
            found = self.packages[package] = Texts()
            if package in self.files:
                self.read(found, package, self.files[package])
        return self.packages[package]

    def read(self, found, package, module):
        """Reads what the BUILD file of a package says."""
        found.has_more = not self.macros.isdisjoint(self.loaded(module))
        try:
            tree = ast.parse(self.text_of(module.file).replace("\x0c", " "))
        except (SyntaxError, ValueError, RecursionError, MemoryError):
            found.default, found.has_more = (None, 1), True
            return
        calls = {node.value for node in tree.body if isinstance(node, ast.Expr) and is_call(node.value)}
        found.has_more |= any(is_call(node) and node not in calls and node.func.id == "exports_files" for node in ast.walk(tree))
        for call in sorted(calls, key=lambda it: it.lineno):
            given = dict(zip(FUNCTIONS[call.func.id], call.args)) | {it.arg: it.value for it in call.keywords}
            values = {name: self.value(module.file, node) for name, node in given.items() if name in FUNCTIONS[call.func.id]}
            self.take(found, call, values)

    @staticmethod
    def take(found, call, values):
        """Notes what a call says."""
        if call.func.id == "package" and "default_visibility" in values:
            found.default = (values["default_visibility"], call.lineno)
        elif call.func.id == "package_group":
            found.groups[(values.get("name") or [""])[0]] = (values.get("packages", []), call.lineno)
        elif call.func.id == "exports_files":
            labels = values["visibility"] if values.get("visibility", []) != [None] and "visibility" in values else list(PUBLIC[:1])
            found.exported.update((it, (labels, call.lineno)) for it in values.get("srcs") or ())
            found.has_more |= values.get("srcs") is None

    def loaded(self, module):
        """The labels of the modules that one loads, directly or not."""
        found, pending = set(), [module]
        while pending:
            for load in pending.pop().loads:
                if load.label not in found:
                    found.add(load.label)
                    pending += [self.facts.modules[load.label]] if load.label in self.facts.modules else []
        return found

    def value(self, path, node):
        """The texts of an expression in a file, a list also where it is one; None where it isn't known."""
        is_shown, value = literal(node)
        if is_shown:
            return value if isinstance(value, list) else [value]
        text = ast.get_source_segment(self.text_of(path).replace("\x0c", " "), node)
        if (path, text) not in self.evaluated:
            self.hidden.setdefault(path, set()).add(text)
        return self.evaluated.get((path, text))

    def of(self, target):
        """What the visibility of a target is."""
        package, _, name = target.label.partition(":")
        if target.kind == "package group":
            return Said(list(PUBLIC[:1]), target.line, "as each package group")
        if target.kind == "generated file":
            rule = self.facts.targets.get(target.deps[0]) if target.deps else None
            return self.of(rule) if rule else Said(None, target.line, "the rule that makes it isn't known")
        if target.kind == "source file":
            return self.of_file(package, name)
        if "visibility" in target.attributes:
            return Said(in_full(target.attributes["visibility"], package), target.line, "")
        if target.kind == "config_setting rule":
            return Said(list(PUBLIC[:1]), target.line, "as each config_setting that doesn't say otherwise")
        if any(it.startswith(("kind: ", "targets: ")) for it in target.lost):
            return Said(None, target.line, f"{target.kind.removesuffix(' rule')} isn't there, and may give a visibility")
        return self.default(package)

    def of_file(self, package, name):
        """What the visibility of a source file is."""
        texts = self.texts(package)
        if name in texts.exported:
            labels, line = texts.exported[name]
            return Said(in_full(labels, package), line, "" if labels is not None else "bq can't evaluate what exports_files says")
        if texts.has_more:
            return Said(None, 1, "a macro or a loop may export it")
        return self.default(package)

    def default(self, package):
        """The visibility of what says nothing."""
        texts = self.texts(package)
        if texts.default is None:
            return Said([], 1, "by default")
        labels, line = texts.default
        return Said(in_full(labels, package), line, "by the package's default_visibility" if labels is not None else "bq can't evaluate the package's default_visibility")

    def lets(self, said, package):
        """By which of its labels a visibility lets a package in, as a list of what leads there; nothing where it doesn't, None where that isn't known."""
        is_known = said.labels is not None
        for label in said.labels or ():
            way = self.by(label, package, ())
            if way:
                return way
            is_known &= way is not None
        return [] if is_known else None

    def by(self, label, package, around):
        """The same for one label."""
        of, _, name = label.rpartition(":")
        if label.endswith(PUBLIC):
            return [label]
        if of.endswith("//visibility"):
            return []
        if name in ("__pkg__", "__subpackages__"):
            return [label] if package == of or name == "__subpackages__" and is_below(package, of) else []
        if label in around:
            return []
        group = self.facts.targets.get(label)
        if not group or group.kind != "package group":
            return [] if group else None
        return self.by_group(group, package, (*around, label))

    def by_group(self, group, package, around):
        """Which labels of a package group let a package in; nothing where that isn't known."""
        of, _, name = group.label.partition(":")
        packages, _ = self.texts(of).groups.get(name, (None, 0))
        repository = of.partition("//")[0]
        if packages is not None and (found := spec_for(packages, package, repository)):
            return [group.label, found]
        is_known = packages is not None
        for other in group.attributes.get("includes", ()):
            way = self.by(other, package, around)
            if way:
                return [group.label, *way]
            is_known &= way is not None
        return [] if is_known else None


def is_call(node):
    """Whether an expression calls one of the functions that count."""
    return isinstance(node, ast.Call) and isinstance(node.func, ast.Name) and node.func.id in FUNCTIONS


def is_below(package, above):
    """Whether a package is one, or lies below it."""
    return package == above or package.startswith(above if above.endswith("//") else f"{above}/")


def in_full(labels, package):
    """Labels in full, of a list as a BUILD file of a package has it."""
    if not isinstance(labels, list):
        return None
    repository = package.partition("//")[0]
    found = []
    for it in (it for it in labels if isinstance(it, str)):
        it = it.removeprefix("@") if it.startswith("@//") else it
        label = f"{repository}{it}" if it.startswith("//") else it if it.startswith("@") else f"{package}:{it.removeprefix(':')}"
        found.append(label if ":" in label else f"{label}:{label.rpartition('/')[2]}")
    return found


def spec_for(packages, package, repository):
    """Which of the packages of a group a package is one of: none where one with `-` takes it out."""
    if any(it.startswith("-") and matches(it[1:], package, repository) for it in packages):
        return ""
    return next((it for it in packages if not it.startswith("-") and matches(it, package, repository)), "")


def matches(spec, package, repository):
    """Whether one of the `packages` of a package group has a package."""
    if spec in ("public", "private"):
        return spec == "public"
    spec = spec.removeprefix("@") if spec.startswith("@//") else spec
    full = spec if spec.startswith("@") else repository + spec
    if full.endswith("/..."):
        above = full.removesuffix("...")
        return is_below(package, above if above.endswith("//") else above.removesuffix("/"))
    return package == (full if full.endswith("//") else full.rstrip("/"))
