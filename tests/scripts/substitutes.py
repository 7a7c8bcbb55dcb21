"""Repositories for Bazel in place of those that a tree loads and that aren't there, made of what bzlq stubs makes for bq: rules of the same names
with the same attributes, which do nothing; of Bazel's own rules these. What is there stays as it is, with what it lacks beside it."""
import os
import re
import shutil

from bzlq.overlay.reading import BUILD_FUNCTIONS
from bzlq.overlay.rule_sets import BAZEL, OF_BAZEL
from bzlq.overlay.stubs import STUB, Facts, Overlay

# a macro of a stub: its name, and the rule that it forwards to
FORWARD = re.compile(r"^def (\w+)\(name, \*args, \*\*given\):\n    native\.(\w+)\(\*\*bzlq_given\(", re.M)
TYPES = {"bool": "attr.bool()", "int": "attr.int()", "string": "attr.string()", "label": "attr.label(allow_files = True)", "label_list": "attr.label_list(allow_files = True)",
         "string_list": "attr.string_list()", "output": "attr.output()", "output_list": "attr.output_list()"}
# attributes that each rule of a .bzl file has by itself, and those that tests have (another rule can't have one called `size`)
OWN = frozenset("""name visibility tags testonly features deprecation compatible_with restricted_to exec_compatible_with exec_properties licenses distribs
    target_compatible_with applicable_licenses toolchains transitive_configs expect_failure generator_name generator_function generator_location
    bzlq_edges bzlq_lost bzlq_defaults""".split())
OF_TESTS = frozenset("args size timeout flaky shard_count local env_inherit".split())


def definition(symbol, rule, schema):
    """The text of a rule of a stub; of one of Bazel's own that rule itself."""
    if rule in OF_BAZEL or rule in BUILD_FUNCTIONS:
        return f"def {symbol}(**given):\n    native.{rule}(**given)\n"
    dicts = {name for given, name in schema.dicts if given == rule}
    given = {name: "attr.string_dict()" if name in dicts else TYPES[kind] for name, kind in schema.types.get(rule, {}).items() if name not in OWN | OF_TESTS}
    attributes = ", ".join(f'"{name}": {text}' for name, text in sorted(given.items()))
    is_test = symbol.endswith("_test")
    return f"{symbol} = rule(implementation = _nothing, test = {is_test}, attrs = {{{attributes}}})\n"


def as_bazel(text, schema):
    """The text of a stub's .bzl file for Bazel."""
    parts = re.split(r"\n(?=def |\w+ = |load)", text.removeprefix(STUB))
    lines = [STUB, "def _nothing(ctx):\n    return []\n"]
    for part in parts:
        found = FORWARD.match(part)
        lines.append(definition(*found.groups(), schema) if found else part + "\n")
    return "".join(it for it in lines if "@bzlq//" not in it)


def written(workspace, room, there):
    """Writes the repositories of a workspace into a folder; gives all there are, by their names."""
    shutil.rmtree(room, ignore_errors=True)
    overlay = Overlay(Facts(workspace), b"")
    found = dict(there)
    for path, text in overlay.files.items():
        folder, _, rest = path.partition("/")
        repository, _, within = rest.partition("/")
        if folder != "external" or repository in ("bzlq", "bazel_tools") or workspace.is_own(repository):
            continue
        if found.get(repository) == there.get(repository):
            found[repository] = f"{room}/{repository}"
            if repository in there:
                shutil.copytree(there[repository], found[repository])
        place = f"{room}/{repository}/{within}"
        beside = [place] + [f"{os.path.dirname(place)}/{it}" for it in ("BUILD", "BUILD.bazel") if os.path.basename(place) in ("BUILD", "BUILD.bazel")]
        if not any(map(os.path.lexists, beside)):
            os.makedirs(os.path.dirname(place), exist_ok=True)
            with open(place, "w", encoding="utf-8", errors="surrogateescape") as file:
                text = text.decode("utf-8", "surrogateescape")
                file.write(as_bazel(text, overlay.schema) if place.endswith(".bzl") else text)
    for path in found.values():
        if path.startswith(room):
            with open(f"{path}/WORKSPACE", "a", encoding="ascii"):
                pass
    return found
