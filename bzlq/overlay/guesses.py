"""Which type an attribute has: by the documents of its rule set, else told from its name and from the values that it is given."""
from collections import Counter

from bzlq.overlay.rule_sets import OF_BAZEL, TYPES

# attributes of all rules, whose defaults none of them chooses
COMMON = set("name visibility tags features testonly deprecation".split())

BY_NAME = {
    name: kind
    for kind, names in {
        "label_list": """srcs hdrs deps data textual_hdrs exports runtime_deps plugins exported_plugins tools exec_tools tests jars resources
            embed td_srcs implementation_deps additional_linker_inputs toolchains compatible_with restricted_to target_compatible_with
            exec_compatible_with constraint_values parents applicable_licenses non_arc_srcs tars layers debs resource_files proto_deps public_hdrs
            private_hdrs""",
        "label": """actual constraint_setting toolchain toolchain_type srcjar manifest win_def_file td_file tblgen test main
            toolchain_config all_files ar_files as_files compiler_files dwp_files linker_files objcopy_files strip_files
            dynamic_runtime_lib static_runtime_lib malloc""",
        "string_list": """copts linkopts defines local_defines includes javacopts jvm_flags imports args clinkopts licenses distribs
            output_licenses conlyopts cxxopts proguard_flags packages""",
        "string": """size timeout importpath importmap cmd cmd_bash cmd_bat cmd_ps message strip_include_prefix include_prefix
            strip_import_prefix import_prefix main_class test_class python_version srcs_version package_dir extension strip_prefix mode
            nocopts toolchain_identifier prefix output_group resource_strip_prefix""",
        "bool": """linkstatic alwayslink flaky local neverlink linkshared executable output_to_bindir is_executable
            use_testrunner""",
        "int": "shard_count stamp legacy_create_init",
        "output_list": "outs",
        "output": "out",
    }.items()
    for name in names.split()
}

# those of Bazel's own rules and of rules that many load which take a dict
DICTS = set("exec_properties env values flag_values define_values substitutions".split())

# the shapes of values, and the types that take them
SHAPES = {
    "string": "text", "label": "text", "strings": "list", "labels": "list", "list": "list", "bool": "bool", "bit": "number", "int": "number",
}
TAKES = {
    "string": {"text"}, "label": {"text"}, "output": {"text"}, "string_list": {"list"}, "label_list": {"list"}, "output_list": {"list"},
    "bool": {"bool", "number"}, "int": {"number"},
}

BASE = """srcs deps data args size timeout flaky shard_count local compatible_with restricted_to target_compatible_with exec_compatible_with
    toolchains licenses applicable_licenses""".split()
# attributes that Bazel's own rules have, besides those that a workspace gives
FAMILIES = {
    "cc_": """hdrs textual_hdrs copts linkopts defines local_defines includes linkstatic alwayslink strip_include_prefix include_prefix
        nocopts linkshared stamp win_def_file additional_linker_inputs malloc implementation_deps""",
    "java_": """runtime_deps exports plugins exported_plugins javacopts jvm_flags main_class test_class resources neverlink jars srcjar
        resource_strip_prefix use_testrunner""",
    "py_": "main imports python_version srcs_version legacy_create_init stamp",
    "genrule": "outs cmd cmd_bash cmd_bat cmd_ps tools exec_tools message executable output_to_bindir stamp",
    "filegroup": "output_group",
    "alias": "actual",
    "test_suite": "tests",
}


def attributes_of(rule, given):
    """The attributes of a rule: those that it is given, and those that such rules have."""
    if rule in OF_BAZEL:
        return sorted({*given, *TYPES[rule]} - COMMON)
    known = [name for family, names in FAMILIES.items() if rule.startswith(family) for name in names.split()]
    known += TYPES.get(rule, ())
    return sorted({*given, *BASE, *known} - COMMON)


def by_values(kinds):
    """The type that most values have; nothing where none shows it."""
    if kinds["labels"] or kinds["list"] and not kinds["strings"]:
        return "label_list"
    if kinds["strings"]:
        return "string_list"
    if kinds["label"] * 3 > kinds["string"]:
        return "label"
    if kinds["string"]:
        return "string"
    if kinds["bool"] or kinds["bit"] and not kinds["int"]:
        return "bool"
    return "int" if kinds["int"] or kinds["bit"] else ""


def type_of(name, kinds, everywhere, rule=""):
    """The type of an attribute, and where it comes from: its name (and rule), its values, its values in other rules, or nothing."""
    shapes = {SHAPES[kind] for kind in kinds if kind in SHAPES and kinds[kind]}
    named = TYPES.get(rule, {}).get(name) or BY_NAME.get(name)
    if named and (not shapes or shapes & TAKES[named]):
        return named, "name"
    if found := by_values(kinds):
        return found, "values"
    if found := by_values(everywhere.get(name, Counter())):
        return found, "other rules"
    return "string", "nothing"
