"""What members of bazel_skylib's structs do that macros call while they are loaded, as functions of Starlark, a line or more each.

By skylib's own documentation (github.com/bazelbuild/bazel-skylib, docs). A stub defines `paths__basename` in place of `paths.basename`.
"""
PATHS = {
    "basename": "(p):\n    return p.rpartition(\"/\")[-1]",
    "dirname": "(p):\n    before, slash, _ = p.rpartition(\"/\")\n    return before.rstrip(\"/\") if before else slash",
    "is_absolute": "(p):\n    return p.startswith(\"/\") or (len(p) > 2 and p[1] == \":\")",
    "join": """(p, *others):
    found = p
    for other in others:
        if other.startswith("/"):
            found = other
        elif not found or found.endswith("/"):
            found += other
        else:
            found += "/" + other
    return found""",
    "split_extension": """(p):
    name = p.rpartition("/")[-1]
    dot = name.rfind(".")
    return (p, "") if dot <= 0 else (p[:dot - len(name)], p[dot - len(name):])""",
    "normalize": """(p):
    found = []
    for part in p.split("/"):
        if part == ".." and (found and found[-1] != ".." or p.startswith("/")):
            found = found[:-1]
        elif part not in ("", "."):
            found.append(part)
    return ("/" if p.startswith("/") else "") + "/".join(found) or "."
""",
    "relativize": """(p, start):
    parts = [part for part in p.split("/") if part not in ("", ".")]
    first = [part for part in start.split("/") if part not in ("", ".")]
    if parts[:len(first)] != first:
        fail("Path '%s' is not beneath '%s'" % (p, start))
    return "/".join(parts[len(first):])""",
    "replace_extension": """(p, extension):
    name = p.rpartition("/")[-1]
    dot = name.rfind(".")
    return (p if dot <= 0 else p[:dot - len(name)]) + extension""",
}
DICTS = {
    "add": """(*dicts, **entries):
    found = {}
    for part in dicts:
        found.update(part)
    found.update(entries)
    return found""",
    "omit": "(dictionary, keys):\n    return {key: value for key, value in dictionary.items() if key not in keys}",
}
SHELL = {"quote": "(text):\n    return \"'\" + text.replace(\"'\", \"'\\\\''\") + \"'\""}
COLLECTIONS = {
    "uniq": "(values):\n    return {value: None for value in values}.keys()",
    "before_each": "(separator, values):\n    return [part for value in values for part in (separator, value)]",
    "after_each": "(separator, values):\n    return [part for value in values for part in (value, separator)]",
}
# (a set is a list without what occurs in it before)
SETS = {
    "make": "(elements = None):\n    return {part: None for part in elements or []}.keys()",
    "copy": "(s):\n    return list(s)",
    "to_list": "(s):\n    return list(s)",
    "insert": "(s, part):\n    if part not in s:\n        s.append(part)\n    return s",
    "remove": "(s, part):\n    s.remove(part)\n    return s",
    "contains": "(s, part):\n    return part in s",
    "length": "(s):\n    return len(s)",
    "union": "(*sets):\n    return {part: None for s in sets for part in s}.keys()",
    "intersection": "(a, b):\n    return [part for part in a if part in b]",
    "difference": "(a, b):\n    return [part for part in a if part not in b]",
    "disjoint": "(a, b):\n    return not [part for part in a if part in b]",
    "is_subset": "(a, b):\n    return not [part for part in a if part not in b]",
    "is_equal": "(a, b):\n    return len(a) == len(b) and not [part for part in a if part not in b]",
}
TYPES = {
    f"is_{name}": f"(v):\n    return type(v) == {kind!r}".replace("'", '"')
    for name, kind in {"list": "list", "string": "string", "bool": "bool", "none": "NoneType", "int": "int", "tuple": "tuple", "dict": "dict"}.items()
}
# (the branches of each alias are its target and an edge)
SELECTS = {
    "config_setting_group": """(name, match_any = [], match_all = [], visibility = None, **given):
    if bool(match_any) == bool(match_all):
        fail("Either 'match_any' or 'match_all' must be set, but not both.")
    settings = match_any or match_all
    if "//conditions:default" in settings:
        native.config_setting_group(**bzlq_given("config_setting_group", ["targets: config_setting_group"], {"name": name, "visibility": visibility}))
        return
    nexts = [":%s_%d" % (name, i) for i in range(2, len(settings))] + settings[-1:]
    for i in range(1, max(len(settings), 2)):
        setting, other = settings[i - 1], nexts[min(i, len(nexts)) - 1]
        lost = ["select: actual"] if len(settings) > 1 else []
        found = {"name": name if i == 1 else "%s_%d" % (name, i), "visibility": visibility if i == 1 else ["//visibility:private"]}
        found["actual"], found["bzlq_edges"] = (other, [setting]) if match_any else (setting, [other])
        native.alias(**bzlq_given("alias", lost, found))""",
}
MEMBERS = {
    f"{symbol}__{member}": text
    for symbol, members in {"paths": PATHS, "dicts": DICTS, "shell": SHELL, "collections": COLLECTIONS, "sets": SETS, "types": TYPES, "selects": SELECTS}.items()
    for member, text in members.items()
}
REPOSITORY = "bazel_skylib"
# macros that declare rules, which aren't called like them in each release
RULES = {
    "build_test": """(name, targets, **given):
    parts, data = {it: None for it in targets}.keys(), []
    size = max(1, len(parts) // 100)
    for i in range(0, len(parts), size):
        data.append("%s_%d__deps" % (name, i // size))
        made = {"name": data[-1], "srcs": parts[i:i + size], "outs": [data[-1] + ".out"], "cmd": "touch $@", "testonly": True, "visibility": ["//visibility:private"]}
        made.update({it: given[it] for it in ("compatible_with", "restricted_to", "tags") if it in given})
        native.genrule(**bzlq_given("genrule", [], made))
    native.build_test(**bzlq_given("build_test", LOST, dict({"name": name, "data": data, "size": "small"}, **given)))""",
}
