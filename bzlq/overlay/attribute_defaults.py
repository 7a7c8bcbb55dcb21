"""What an attribute has in Bazel where a target doesn't give it, and its type doesn't say: takes the name of an attribute, and a pattern for its text, gives
the rules of which a query for that has another answer here."""
import re

from bzlq.overlay.rule_sets import BAZEL, TEST_TYPES, TYPES

# attributes of Bazel's own rules whose defaults aren't what their types have anyway, each with the rules and the text of the default, by the answer of
# 4.2.3 with --xml:default_values; none where that lacks the rule, and its documents say that there is such a default. (Those of tests are in the data:
# arguments.py.)
OF_BAZEL = {
    "create_executable": ("java_binary java_test", "1"),
    "legacy_create_init": ("py_binary py_test", "-1"),
    "linkstatic": ("cc_binary", "1"),
    "malloc": ("cc_binary cc_test", "@bazel_tools//tools/cpp:malloc"),
    "python_version": ("py_binary py_runtime py_test", "_INTERNAL_SENTINEL"),
    "srcs_version": ("py_binary py_library py_test", "PY2AND3"),
    "stamp": ("cc_binary java_binary py_binary", "-1"),
    "strict": ("genquery", "1"),
    "stub_shebang": ("py_runtime", "#!/usr/bin/env python"),
    "tags": ("config_setting constraint_setting constraint_value platform toolchain", "[manual]"),
    "use_launcher": ("java_binary java_test", "1"),
    "use_testrunner": ("java_test", "1"),
    **dict.fromkeys(("crunch_png", "dex_shards", "incremental_dexing", "manifest_merger", "multidex", "shrink_resources"), ("android_binary", None)),
    "exports_manifest": ("android_library", None),
    "supports_param_files": ("cc_toolchain", None),
}
# types whose defaults rules choose mostly
CHOSEN = ("bool", "int", "string")
# the text of an attribute that isn't given, by its type
TEXTS = {"bool": "0", "int": "0", "string": "", "string_list": "[]", "label_list": "[]"}
# attributes that Bazel gives each target by itself, of the macro that declares it
OF_MACROS = ("generator_function", "generator_location", "generator_name")


def rules_with(name, pattern):
    """The rules that may have a default of this attribute that has a match where the type's has none, or none where that has one: Bazel's own by this
    table, and all of other repositories."""
    rules, default = OF_BAZEL.get(name, ("", None))
    found = [rule for rule in rules.split() if default is None or has_match(pattern, default) != has_match(pattern, TEXTS.get(TYPES.get(rule, {}).get(name, "string_list")))]
    others = (rule for rule, types in TYPES.items() if rule not in BAZEL and types.get(name) in CHOSEN and name not in TEST_TYPES)
    return sorted({*found, *others})


def has_match(pattern, text):
    """Whether a text has a match; nothing that is true or false where Python doesn't know the pattern. No text has none."""
    try:
        return text is not None and bool(re.search(pattern, text))
    except (re.error, RecursionError, OverflowError):
        return text
