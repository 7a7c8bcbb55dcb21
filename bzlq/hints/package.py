"""What a BUILD file declares, with the faults of its calls of rules and build functions."""
import ast
import re

from bzlq.hints import labels
from bzlq.hints.suggestions import did_you_mean
from bzlq.hints.values import Wrong, shown, spend, type_of
from bzlq.workspace.path_patterns import PathPattern

BUILD_FUNCTIONS = ("glob", "package_name", "package", "licenses", "exports_files", "package_group")
LISTS = ("string_list", "label_list", "output_list")


class Package:
    """A package while its BUILD file is evaluated."""

    def __init__(self, sources, path):
        self.sources, self.path = sources, path
        directory = path.rpartition("/")[0]
        found = re.fullmatch(r"external/([^/]+)(?:/(.*))?", directory)
        self.directory, self.repository, self.package_path = directory, found[1] if found else "", (found[2] or "") if found else directory
        self.targets = {}  # name -> (what, place)

    # build functions

    def package_name(self, given, named):
        """The function of that name."""
        return self.package_path

    def package(self, given, named):
        """The function of that name, and others that declare nothing."""
        return None

    licenses = package

    def exports_files(self, given, named):
        """The function of that name."""
        for name in self.texts("exports_files", "srcs", given[0] if given else named.get("srcs")):
            self.check_name(name, ("srcs", name))
            if name in self.targets and self.targets[name][0] != "file":
                self.double(name)
            self.targets.setdefault(name, ("file", None))

    def package_group(self, given, named):
        """The function of that name."""
        name = given[0] if given else named.get("name")
        if not isinstance(name, str):
            raise Wrong("F73", f"'name' of package_group is a string, and not a {type_of(name)}")
        self.check_name(name, ("name", name))
        for label in self.texts("package_group", "includes", named.get("includes", [])):
            self.label(label, ("includes", label))
        if name in self.targets:
            self.double(name)
        self.targets[name] = ("group", None)

    def texts(self, function, what, value):
        """An argument that is a list of strings."""
        if not isinstance(value, list | tuple) or not all(isinstance(it, str) for it in value):
            raise about(Wrong("F73", f"'{what}' of {function} is a list of strings, and not a {type_of(value)}: {shown(value)}"), what, value)
        return value

    def glob(self, given, named):
        """The function of that name."""
        include, exclude = self.texts("glob", "include", given[0] if given else named.get("include")), self.texts("glob", "exclude", named.get("exclude", []))
        if named.get("exclude_directories", 1) not in (1, True):
            raise about(Wrong("F57", "glob gives no directories: exclude_directories is 1"), "exclude_directories")
        for pattern in [*include, *exclude]:
            if wrong := bad_pattern(pattern):
                raise about(Wrong("F77", f"the pattern '{pattern}' {wrong}"), "", pattern)
        files = self.sources.files_of(self.directory)
        without = [PathPattern(it.split("/")) for it in exclude]
        found = set()
        for pattern in include:
            of = PathPattern(pattern.split("/"))
            spend(len(files))
            matches = [it for it in files if of.has(it)]
            if not matches and not named.get("allow_empty", True):
                raise about(Wrong("F76", f"no file matches '{pattern}', and allow_empty is False{like(pattern, files)}"), "", pattern)
            found |= {it for it in matches if not any(no.has(it) for no in without)}
        if not found and not named.get("allow_empty", True):
            raise Wrong("F76", "no file is left, and allow_empty is False")
        return sorted(found)

    # rules

    def declare(self, rule, named, place):
        """Declares a target."""
        for name, value in named.items():
            if name not in rule.attributes:
                raise about(Wrong("F71", f"no attribute '{name}' in rule '{rule.name}'{did_you_mean(name, rule.attributes)}"), name)
            if value is not None:
                self.attribute(rule, name, rule.attributes[name], value)
        for name in ("name", *sorted(rule.mandatory)):
            if named.get(name) is None:
                raise Wrong("F72", f"the rule {rule.name} misses the attribute '{name}'")
        made = [named["name"]]
        for name, value in named.items():
            if rule.attributes[name] in ("output", "output_list") and value is not None:
                made += [it.lstrip(":") for it in ([value] if isinstance(value, str) else value)]
        for at, name in enumerate(made):
            if name in self.targets or name in made[:at]:
                self.double(name, place if name in made[:at] else None)
        for at, name in enumerate(made):
            self.targets[name] = ("rule" if at == 0 else "output", place)

    def double(self, name, place=None):
        """Raises that a name is there already."""
        what, there = self.targets.get(name, ("rule", place))
        path, node = there if there else ("", None)
        where = f" at {self.sources.place(path)}:{node.lineno}" if node is not None else ""
        kind = {"rule": f"declared{where}", "output": f"an output of the call{where}", "group": "a package group", "file": "an exported file"}[what]
        raise about(Wrong("F74", f"'{name}' is {kind} already"), "name", name)

    def attribute(self, rule, name, kind, value):
        """Checks an attribute's value."""
        is_right = {
            "string": isinstance(value, str), "label": isinstance(value, str), "output": isinstance(value, str),
            "int": type(value) is int, "bool": isinstance(value, bool) or type(value) is int and value in (0, 1),
        }.get(kind, isinstance(value, list | tuple) and all(isinstance(it, str) for it in value))
        if not is_right:
            wanted = {"string_list": "a list of strings", "label_list": "a list of labels", "output_list": "a list of names"}.get(kind, f"a {kind}")
            odd = next((it for it in value if not isinstance(it, str)), None) if kind in LISTS and isinstance(value, list | tuple) else value
            inner = f"{shown(odd)} in a list" if odd is not value else f"{shown(value)}, a {type_of(value)}"
            cure = f": write [{shown(value)}]" if kind in LISTS and isinstance(value, str) else ""
            raise about(Wrong("F73", f"'{name}' of {rule.name} wants {wanted}, and is given {inner}{cure}"), name)
        for text in [value] if isinstance(value, str) else value if isinstance(value, list | tuple) else ():
            if name == "name" or kind in ("output", "output_list"):
                self.check_name(text.removeprefix(":") if name != "name" else text, (name, text))
            elif kind in ("label", "label_list") and name != "visibility":
                self.label(text, (name, text))

    def check_name(self, name, at):
        """Checks the name of a target or file."""
        try:
            labels.check(name, "name")
        except labels.BadLabel as error:
            raise about(Wrong("F75", f"{error}, which no target's name may have" if name else "the name is empty"), *at) from None
        self.crosses(name, at)

    def label(self, text, at):
        """The label that a text of an attribute is."""
        try:
            repository, package, name = labels.split(text, self.repository, self.package_path)
        except labels.BadLabel as error:
            raise about(Wrong("F78", f"'{text}' is no label: {error}"), *at) from None
        if (repository, package) == (self.repository, self.package_path):
            self.crosses(name, at)

    def crosses(self, name, at):
        """Raises that a name leads into another package, if it does."""
        path = f"{self.directory}/{name}" if self.directory else name
        owner = self.sources.owner(path)
        if owner != self.directory and owner.startswith(self.directory) and not owner.startswith("external/"):
            raise about(Wrong("F37", f"'{at[1]}' crosses the package {owner}: write '//{owner}:{path[len(owner) + 1:]}'"), *at)


def about(wrong, name="", value=None):
    """Has the place be that of a keyword, or of a text in it."""
    wrong.keyword, wrong.value = name, value
    return wrong


def place_in(node, wrong):
    """The part of a call that a fault is about: a text, else a keyword's value, else the call."""
    name, value = getattr(wrong, "keyword", ""), getattr(wrong, "value", None)
    if not isinstance(node, ast.Call):
        return node
    inside = [it for it in node.keywords if it.arg == name]
    for part in ast.walk(inside[0] if inside else node):
        if value is not None and isinstance(part, ast.Constant) and part.value == value:
            return part
    return inside[0] if inside else node


def bad_pattern(pattern):
    """What is wrong with a pattern of a glob; nothing where it is one."""
    for segment in pattern.split("/"):
        if segment in ("", ".", ".."):
            return f"has a segment '{segment}'" if segment else "is empty" if not pattern else "has an empty segment"
        if "**" in segment and segment != "**":
            return f"has ** inside a longer segment: write '{pattern.replace('**', '**/*', 1)}'"
    return ""


def like(pattern, files):
    """Files whose name ends as the pattern's would, but for a letter or two."""
    end = pattern.rpartition(".")[2]
    ends = {it.rpartition(".")[2] for it in files if "." in it and it not in ("BUILD.bazel",)}
    found = did_you_mean(end, ends) if end else ""
    return found.replace("did you mean '", "did you mean '*.") if found else ""
