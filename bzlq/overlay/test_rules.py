"""What the macros of `@bazel_tools//tools/build_rules:test_rules.bzl` declare, as functions of Starlark: a rule that writes a script, and a test that runs it.

By the file itself, in the sources of Bazel 4.2.3.
"""
REPOSITORY = "bazel_tools"
# of each macro its parameters but for the name and those that both rules have, the rule that writes the script, what that is given, and how the script's name ends
MACROS = {
    "failed_test": ("msg", "_failed_rule", '"msg": msg', "_impl.sh"),
    "file_test": ("file, content = None, regexp = None, matches = None", "_file_test_rule",
                  '"file": file, "content": content or "", "regexp": regexp or "", "matches": -1 if matches == None else matches', "_impl.sh"),
    "rule_test": ("rule, generates = None, provides = None", "_rule_test_rule", '"rule": rule, "generates": generates, "provides": provides', ".sh"),
    "successful_test": ("msg", "_successful_rule", '"msg": msg', "_impl.sh"),
}
TEXT = """(name, {parameters}, **given):
    made = {{key: value for key, value in given.items() if key not in ("args", "size", "timeout", "flaky", "local", "shard_count")}}
    made.update({{"name": name + "_impl", {attributes}, "out": name + "{ending}", "testonly": True, "visibility": ["//visibility:private"]}})
    native.{rule}(**bzlq_given("{rule}", [], made))
    test = {{"name": name, "srcs": [name + "_impl"], "data": [name + "_impl"], "deps": ["@bazel_tools//tools/bash/runfiles"]}}
    native.sh_test(**bzlq_given("sh_test", [], dict(test, **given)))"""
RULES = {symbol: TEXT.format(parameters=parameters, rule=rule, attributes=attributes, ending=ending) for symbol, (parameters, rule, attributes, ending) in MACROS.items()}
# the rules that the schema has to have for each of them
DECLARED = {symbol: (rule, "sh_test") for symbol, (_, rule, *_) in MACROS.items()}
