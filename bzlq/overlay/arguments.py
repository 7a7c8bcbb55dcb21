"""What stands between the calls of an overlay's files and the rules of its schema: the text of `@bzlq//:given.bzl`.

For each rule `x` it has a function `bzlq_r_x`, which declares the target, and puts into three attributes of their own what the rule can't be given:

- `bzlq_edges`: what Bazel's query makes edges of, and no other attribute has: conditions of a `select`, the branches of one value that aren't
  taken, labels among the keys of a dict;
- `bzlq_lost`: what was made up or left out, as texts, each with one of the words of LOST and a colon before it;
- `bzlq_defaults`: the attributes that aren't given and whose defaults aren't known.

A `select` is a list of all of its branches with a mark before them, or the default branch with marks in it. Nothing that Bazel loads looks into
a `select`, so the marks come to the calls as they are, and are taken out there.

A large workspace calls these functions a hundred thousand times, so they look at elements one by one only where something is odd: `str`, `in`,
`count` and `remove` look at a whole list in a step or a few.
"""
from bzlq.overlay.lost_values import passed_on
from bzlq.overlay.rule_sets import BAZEL
from bzlq.overlay.starlark_text import starlark

# what may be lost, by its word; whether an answer may then lack a target
LOST = {
    "kind": False,  # the kind, for a rule or macro that isn't there
    "targets": True,  # what else a macro declares, which one target stands for
    "value": True,  # what a name of another repository, or one that bq leaves out, stands for
    "edges": True,  # the type of an attribute was guessed, and what it is given may name files
    "files": True,  # files whose names bq can't have, which a glob may match in Bazel
    "dict": False,  # an attribute with a dict, or with a list of other things than texts
    "select": False,  # the other branches of an attribute with one value
}
LOST_ATTRIBUTE = "bzlq_lost"
DEFAULTS_ATTRIBUTE = "bzlq_defaults"
# in that, what says that a rule may have attributes that aren't shown, and what stands before the names of those that are
ANY, SHOWN = "*", "-"
ATTRIBUTES = {"bzlq_edges": "label_list", LOST_ATTRIBUTE: "string_list", DEFAULTS_ATTRIBUTE: "string_list"}
# attributes whose dicts have texts as keys
TEXTS = ("define_values", "env", "exec_properties", "rustc_env", "substitutions", "values")
DIRECTORY = "external/bzlq"
LABEL = "@bzlq//:given.bzl"
# what a file begins with that stands for one which isn't there
STUB = "# A stub that tools/stubs wrote.\n"
# (as long as `native.`, so that columns stay)
PREFIX = "bzlq_r_"

TEXT = '''\
_DEFAULT = "//conditions:default"
_MARK = "=select= "
_AND = " =and= "
_BRANCH = "=branch= "
_END = "=end="

def _is_texts(values):
    """Whether a list has texts alone: written out, each then follows another."""
    text = str(values)
    return not values or text.startswith("[\\"") and text.count("\\", \\"") == len(values) - 1

def _conditions(branches):
    keys = branches.keys()
    if not _is_texts(keys):
        keys = [part for key in keys for part in (key if type(key) == "tuple" else [key]) if type(part) == "string"]
    return [it for it in keys if it != _DEFAULT]

def _marked(conditions):
    return [_MARK + _AND.join(conditions)] if conditions else []

def _select(branches, nothing):
    if type(branches) != "dict":
        return branches if type(branches) == type(nothing) else nothing
    size = len(branches)
    if size and [type(it) for it in branches.values() + branches.keys()] == ["list"] * size + ["string"] * size:
        found = [_MARK + _AND.join(branches.keys())]
        for it in branches.values():
            found += it
        return found
    conditions = _conditions(branches)
    given = [list(value) if type(value) == "tuple" and value[:1] != (_MARK,) else value for value in branches.values() if value != None]
    kinds = [type(value) for value in given]
    if "list" in kinds or not given and nothing != None:
        return _marked(conditions) + [part for value in given if type(value) == "list" for part in value]
    found = branches.get(_DEFAULT)
    if found == None and given:
        found = given[-1]
    if type(found) == "string":
        return found + "".join([_MARK + it + _END for it in conditions or [""]] + [_BRANCH + it + _END for it in given if type(it) == "string" and it != found])
    return (_MARK, found, conditions)

def bzlq_select(branches, no_match_error = ""):
    return _select(branches, None)

def bzlq_select_list(branches, no_match_error = ""):
    return _select(branches, [])

def bzlq_files():
    found = _LEFT_OUT.get(native.package_name())
    return ["files: " + found] if found else []

def bzlq_r_glob(*args, **given):
    """Without the schema of the overlay, which is no file of the workspace."""
    found = native.glob(*args, **given)
    if native.package_name() or "rules.schema" not in found:
        return found
    if len(found) == 1 and given.get("allow_empty", True) == False:
        fail("no file matches " + str(args[0] if args else given.get("include")) + ", and allow_empty is False")
    return [it for it in found if it != "rules.schema"]

def bzlq_patterns(patterns):
    return [it for it in patterns if type(it) == "string" and it and not [part for part in it.split("/") if part in ("", ".", "..") or "**" in part and part != "**"]]

def _of_text(rule, key, value, edges, lost):
    plain = ""
    for piece in value.split(_END):
        before, mark, condition = piece.partition(_MARK)
        before, is_branch, branch = before.partition(_BRANCH)
        plain += before
        if mark:
            edges[condition] = None
        elif is_branch and key in _LABELS.get(rule, []):
            edges[branch] = None
    lost.append("select: " + key)
    return plain

def _labels(values):
    return [it for it in values if type(it) == "string" and (it[:1] in (":", "@") or it[:2] == "//")]

def _is_left_out(rule, key, value, edges, lost):
    is_open = rule not in _DICTS
    if type(value) == "dict" and (is_open or key in _DICTS[rule]):
        if key not in _TEXTS:
            edges[_AND.join(_labels(value.keys()))] = None
            if rule == "cc_toolchain_suite":
                edges[_AND.join(value.values())] = None
            elif _labels([part for it in value.values() for part in (it if type(it) == "list" else [it])]):
                lost.append("edges: " + key)
    elif not (type(value) == "list" and is_open and not _is_texts(value)):
        return False
    lost.append("dict: " + key)
    return True

def _list(value, edges):
    """A list without its marks, whose conditions are edges."""
    text = str(value)
    if _MARK not in text:
        return value
    pieces = text.split("\\"" + _MARK)
    if "\\\\" in text or _END in text or text.count(_MARK) != len(pieces) - 1:
        return _unmarked(value, edges)
    if len(pieces) > 4 and text.startswith("[\\"") and text.count("\\", \\"") == len(value) - 1:
        # (each of so many would be looked for in the whole list)
        found = [it for it in value if not it.startswith(_MARK)]
        if len(value) - len(found) != len(pieces) - 1:
            return _unmarked(value, edges)
        for it in pieces[1:]:
            edges[it.partition("\\"")[0]] = None
        return found
    found = list(value)
    for it in pieces[1:]:
        conditions = it.partition("\\"")[0]
        if _MARK + conditions not in found:
            return _unmarked(value, edges)
        found.remove(_MARK + conditions)
        edges[conditions] = None
    return found

def _unmarked(value, edges):
    """The same for marks that a list's text doesn't show."""
    if [it for it in value if str(it).find(_MARK) > 0 or _END in str(it)]:
        fail("a select in a list: write [..] + select(..)")
    for it in value:
        if type(it) == "string" and it.startswith(_MARK):
            edges[it[len(_MARK):]] = None
    return [it for it in value if type(it) != "string" or not it.startswith(_MARK)]

def _guesses(rule, given, lost):
    for key in _GUESSED.get(rule, []):
        value = given.get(key)
        if value == None:
            continue
        parts = value if type(value) == "list" else [value]
        if [it for it in parts if type(it) == "string" and ("." in it or "/" in it) and " " not in it and it[:1] != "-"]:
            lost.append("edges: " + key)

def _plain(rule, found, edges, lost):
    is_open = rule not in _DICTS
    for key, value in found.items():
        kind = type(value)
        if kind == "tuple" and value[:1] == (_MARK,):
            edges[_AND.join(value[2])] = None
            lost.append("select: " + key)
            value = value[1]
            kind = type(value)
            found[key] = value
        if kind == "list":
            if is_open and _is_left_out(rule, key, value, edges, lost):
                found.pop(key)
            else:
                found[key] = _list(value, edges)
        elif kind == "string":
            if _MARK in value:
                found[key] = _of_text(rule, key, value, edges, lost)
        elif kind == "dict" and _is_left_out(rule, key, value, edges, lost):
            found.pop(key)

def _unnamed(args):
    """What may be edges among arguments without a name, which no attribute has."""
    values = []
    for it in args:
        values += it if type(it) == "list" else it.keys() + it.values() if type(it) == "dict" else [it]
    texts = [it if type(it) == "string" else str(it) for it in values]
    is_odd = [it for it in texts if it[:1] in (":", "@") or ("." in it or "/" in it) and " " not in it and it[:1] != "-"]
    return ["edges: arguments without a name"] if is_odd or _MARK in str(args) else []

def _check(rule, given, mandatory, values):
    """What the rule can't do without is given, and no text that it doesn't take: of what isn't known nothing is said."""
    if native.package_name() in _PASSED:
        return
    for key in mandatory:
        if key not in given:
            fail("the rule " + rule + " misses the attribute '" + key + "'")
    for key, texts in values.items():
        value = given.get(key)
        if type(value) == "string" and value and value not in texts:
            fail("'" + key + "' of " + rule + " is one of '" + "', '".join(texts) + "', and not '" + value + "'")

def bzlq_given(rule, lost, given, args = (), defaults = {}, hidden = (), mandatory = (), values = {}):
    found, edges = dict(given), {}
    lost = lost + (found.pop("bzlq_lost", None) or []) + (_unnamed(args) if args else [])
    text = str(given)
    is_odd = rule not in _DICTS and [1 for value in found.values() if type(value) == "list" and not _is_texts(value)]
    if is_odd or _MARK in text or ": {" in text or ": (" in text:
        _plain(rule, found, edges, lost)
    if rule in _GUESSED:
        _guesses(rule, found, lost)
    if rule == "genrule":
        if _MARK in str(given.get("outs")):
            fail("a select in 'outs' of genrule, which takes none")
        _outputs(found)
    if mandatory or values:
        _check(rule, given | found, mandatory, values)
    if rule in _TESTS:
        _check(rule, found, (), _OF_TESTS)
        _test(found)
    if rule == "test_suite" and not found.get("tests"):
        _suite(found, lost)
    if edges:
        labels = [it for it in {it: None for it in _AND.join(edges.keys()).split(_AND)} if it and it != _DEFAULT]
        if labels:
            found["bzlq_edges"] = labels
    for key, value in defaults.items():
        if found.get(key) == None:
            found[key] = value
    if hidden:
        found["bzlq_defaults"] = [it for it in hidden if found.get(it) == None]
    if _PASSED:
        lost = lost + _PASSED.get(native.package_name(), [])
    if lost:
        found["bzlq_lost"] = {it: None for it in lost}.keys()
    return found

def _outputs(given):
    """No file is an input of a rule and its output."""
    outs, srcs = [it if type(it) == "list" else [] for it in (given.get("outs"), given.get("srcs"))]
    before = "//" + native.package_name() + ":"
    for out in outs:
        if type(out) == "string" and (out in srcs or ":" + out in srcs or before + out in srcs):
            fail("rule '" + str(given.get("name")) + "' has the file '" + out + "' as an input and as an output")

def _suite(given, lost):
    """All tests of the package."""
    if native.package_name() in _TESTS_IN:
        given["tests"] = [":" + it for it in _TESTS_IN[native.package_name()] if it != given.get("name")]
    else:
        lost.append("edges: tests")

_OF_TESTS = {"size": ["small", "medium", "large", "enormous"], "timeout": ["short", "moderate", "long", "eternal"]}

def _test(given):
    """What Bazel takes where a test gives none."""
    if given.get("size") == None:
        given["size"] = "medium"
    if given.get("timeout") == None:
        given["timeout"] = {"small": "short", "large": "long", "enormous": "eternal"}.get(given["size"], "moderate")
    if given.get("flaky") == None:
        given["flaky"] = False
    if given.get("shard_count") == None:
        given["shard_count"] = -1
'''


# how long a file's tables may be together, so that it isn't too long for bq, and an entry: the tests of a package, or the attributes of a rule
MOST_OF_TABLES, MOST_OF_ENTRY = 800_000, 400_000
# a line of an overlay that depends on which files there are
BY_NAMES = "# Which labels are further targets depends on which files there are.\n"


def given_files(schema, facts, mark):
    """The files of the repository `@bzlq`, by their paths: tables that are too long for one file are in others."""
    mark += BY_NAMES if facts.further else ""
    tables = {**schema.tables(), "_TEXTS": dict.fromkeys(TEXTS), "_TESTS_IN": facts.tests_in, "_LEFT_OUT": facts.workspace.left_out, "_PASSED": passed_on(facts)}
    parts = {name: [it for it in map(entry, table.items()) if len(it) <= MOST_OF_ENTRY] for name, table in tables.items()}
    if sum(len(it) for part in parts.values() for it in part) <= MOST_OF_TABLES:
        found, lines = {}, [f"{name} = {{{', '.join(part)}}}\n" for name, part in parts.items()]
    else:
        found, lines = divided(parts, mark)
    functions = [f"\ndef {PREFIX}{rule}(*args, **given):\n    native.{rule}(*args, **bzlq_given(\"{rule}\", [], given))\n" for rule in schema.types if rule in BAZEL]
    return {f"{DIRECTORY}/BUILD": mark, f"{DIRECTORY}/given.bzl": mark + "".join(lines) + TEXT + "".join(functions), **found}


def entry(pair):
    """An entry of a table, as Starlark writes it."""
    return f"{starlark(pair[0])}: {starlark(pair[1])}"


def divided(parts, mark):
    """The files that tables are divided into, by their paths, and the lines that put them together."""
    files, lines = {}, []
    for name, entries in parts.items():
        pieces, size = [[]], 0
        for it in entries:
            if size + len(it) > MOST_OF_TABLES:
                pieces, size = [*pieces, []], 0
            pieces[-1].append(it)
            size += len(it) + 2
        first = len(files)
        files |= {f"{DIRECTORY}/table{first + at}.bzl": f"{mark}TABLE = {{{', '.join(piece)}}}\n" for at, piece in enumerate(pieces)}
        numbers = range(first, len(files))
        lines += [f'load("@bzlq//:table{at}.bzl", _TABLE_{at} = "TABLE")\n' for at in numbers]
        lines.append(f"{name} = {' | '.join(f'_TABLE_{at}' for at in numbers)}\n")
    return files, lines
