"""Errors of queries and runs: takes the error, the query's text and the sources; gives the lines that say what is wrong."""
import difflib
import re

from bzlq.facts.query_functions import ARGUMENTS, counts, forms
from bzlq.facts.query_text import TOKEN, UNQUOTED
from bzlq.hints import labels
from bzlq.hints.machine import Machine
from bzlq.hints.names import package_missing
from bzlq.hints.suggestions import did_you_mean, nearest

LEFT_OUT = {
    "somepath": "`bzlq why a b` has a shortest path, and allpaths(a, b) all targets on the ways from a to b", "some": "take a line of the answer: | head -1",
    "allrdeps": "write rdeps(//..., x)", "tests": 'write kind("_test rule", x)', "buildfiles": "no query has the files that are loaded",
    "loadfiles": "no query has the files that are loaded", "rbuildfiles": "no query has the files that are loaded", "siblings": "write //package:*",
    "visible": "`bzlq visible a b` says whether b is visible to a", "executables": "kinds alone are known", "same_pkg_direct_rdeps": "write rdeps(//package:all, x, 1)",
}
OPERATORS = "except intersect union + ^ -".split()
# all of a repository
ALL = re.compile(r"(|@[^/]*)//\.\.\.(:.*)?")
KEYWORDS = [*OPERATORS, "in", "let", "set"]
# how many steps of a BUILD file are evaluated for the names of its targets, of which one may be meant: a large one names most of them in its text
STEPS = 30_000


def pointed(query, at, what):
    """The query, and below it what is wrong at a place."""
    return f"\n    {query}\n    {' ' * at}^ {what}"


def tokens(query):
    """The tokens of a query, each with its place."""
    return [(found.start(), found[0]) for found in TOKEN.finditer(query) if not found[0].isspace()]


MEANT = {"and": "intersect", "&": "intersect", "or": "union", "|": "union", "not": "except"}


def syntax(query):
    """Where a query ends to be one."""
    opened, before = [], ""
    for at, text in tokens(query):
        if text == "(":
            opened.append(at)
        elif text == ")":
            if not opened:
                return pointed(query, at, "this parenthesis closes none")
            if before in (",", "(") or before in KEYWORDS:
                return pointed(query, at, "something is missing before this parenthesis")
            opened.pop()
        elif text in "\"'":
            return pointed(query, at, "this quote is never closed")
        elif text == "=" or text == ",":
            if not before or before in "(,":
                return pointed(query, at, "something is missing before this sign")
        elif text in OPERATORS and (not before or before in "(,=" or before == "in" or before in OPERATORS):
            return pointed(query, at, f"an operand is missing before '{text}'")
        elif text in MEANT and (text in "&|" or is_value(before) or before == ")"):
            return pointed(query, at, f"'{text}' is no operator of queries: write {MEANT[text]}")
        elif text not in ("+", "^", "-") and not is_word(text):
            return pointed(query, at, f"'{text}' is no part of a query: put words with it in quotes")
        elif is_value(text) and (is_value(before) or before == ")") and "set" not in query[:at]:
            hint = ": bq takes no word 'query'" if before == "query" else ""
            return pointed(query, at, f"an operator is missing between '{before}' and '{text}'{hint}")
        before = text
    if opened:
        return pointed(query, opened[-1], "this parenthesis is never closed")
    return pointed(query, len(query), "the query ends too early") if query else ": the query is empty"


def is_value(text):
    """Whether a token is a word that is no operator."""
    return is_word(text) and text not in KEYWORDS


def is_word(text):
    """Whether a token is a word, in quotes or without."""
    return bool(UNQUOTED.fullmatch(text) or re.fullmatch(r"""["'].*["']""", text, re.S))


def place_of(query, word):
    """Where a word is in a query; nothing where it isn't."""
    return next((at for at, text in tokens(query) if text.strip("\"'") == word), -1)


def word(query, detail, what):
    """What is wrong with a word of a query, below the query."""
    at = place_of(query, detail)
    return pointed(query, at, what) if at >= 0 else f": {detail}: {what}"


def regex(query):
    """The pattern that is no regular expression, as far as Python's `re` refuses it too."""
    for function, argument in calls(query):
        patterns = argument[:1] if function in ("kind", "filter") else argument[1:2] if function == "attr" else []
        for at, text in patterns:
            inner = text.strip("\"'")
            try:
                re.compile(inner)
            except re.error as error:
                reason = {"nothing to repeat": "there is nothing before it to repeat: write .* for anything"}.get(error.msg.split(" at ")[0], error.msg)
                return pointed(query, at + (text[:1] in "\"'") + (error.pos or 0), reason)
    return ": a pattern of kind, filter or attr is no regular expression"


def calls(query):
    """The calls of a query: the function, and its arguments that are one word, the others as whole texts."""
    found, stack = [], []
    listed = tokens(query)
    for number, (at, text) in enumerate(listed):
        if text == "(":
            name = listed[number - 1][1] if number and is_value(listed[number - 1][1]) else ""
            stack.append((name, [], listed[number - 1][0] if name else at))
        elif text == ")" and stack:
            name, given, _ = stack.pop()
            found.append((name, given))
            if stack and not stack[-1][1]:
                stack[-1][1].append((at, text))  # (an argument in parentheses)
        elif text == "," and stack:
            stack[-1][1].append((at, ","))
        elif stack:
            stack[-1][1].append((at, text))
    return [(name, arguments(given)) for name, given in found if name in ARGUMENTS]


def arguments(given):
    """The first word of each argument."""
    found, is_first = [], True
    for at, text in given:
        if text == ",":
            is_first = True
        elif is_first:
            found.append((at, text))
            is_first = False
    return found


def wrong_arguments(query):
    """The call of a query whose arguments are wrong."""
    for function, given in calls(query):
        least, most = counts(function)
        at = place_of(query, function)
        if not least <= len(given) <= most:
            return pointed(query, at, f"{function} takes {least if least == most else f'{least} or {most}'} arguments, and {len(given)} "
                                      f"{'is' if len(given) == 1 else 'are'} given: {forms(function)}")
        if ARGUMENTS[function][-1] == "depth?" and len(given) == most and not re.fullmatch(r"\d{1,9}", given[-1][1]):
            return pointed(query, given[-1][0], f"the depth is a number of 1 to 9 digits: {forms(function)}")
    for at, text in tokens(query):
        inner = text.strip("\"'")
        if inner.startswith(("//", "@")):
            repository = ALL.fullmatch(inner)
            try:
                labels.split(f"{repository[1]}//:x" if repository else re.sub(r"/?\.\.\.(:.*)?$", "", inner).replace(":*", ":all") or "//:x")
            except labels.BadLabel as error:
                return pointed(query, at, f"this is no target pattern: {error}")
    return ""


def left_out(query, detail):
    """What to write in the place of a word that is left out."""
    if detail in LEFT_OUT:
        return word(query, detail, f"{detail} is left out: {LEFT_OUT[detail]}")
    if detail.startswith("@@"):
        return word(query, detail, "labels that begin with '@@' are left out")
    if place_of(query, detail) == 0 and detail == "query":
        return word(query, detail, "there is no word 'query' here: the query itself comes first")
    return word(query, detail, f"a label begins with '//' or '@': write //PACKAGE:{detail[1:]}" if detail.startswith(":")
                else f"a label begins with '//' or '@', and counts from the workspace's root: write //{detail}")


def no_target(sources, faults, detail):
    """Why a package has no such target."""
    repository, package, name = labels.split(detail)
    directory = labels.directory(repository, package)
    build, package = sources.build_file(directory), f"@{repository}//{package}" if repository else package
    own = next((it for it in faults if it.number != "F79" and sources.file_of(it.label) == build), None)
    if own:
        return f": {detail}: package '{package}' has no targets, since its BUILD file has a fault: mend that first"
    path = f"{directory}/{name}".lstrip("/")
    if sources.has_file(path):
        return f": {detail}: the file is there, and no target of package '{package}' names it: use exports_files"
    names = target_names(sources, build)
    near = did_you_mean(name, names)
    return f": {detail}: package '{package}' has no target '{name}'{near}"


def target_names(sources, build):
    """The names of a package's targets and files: those that its evaluation declares, or that its text gives by `name = "x"`."""
    def find():
        machine = Machine(sources, STEPS)
        machine.run(build)
        declared = machine.packages[build].targets if build in machine.packages else ()
        written = re.findall(r"\bname\s*=\s*[\"']([^\"'\n]+)[\"']", sources.text(build))
        return {*declared, *written, *sources.files_of(build.rpartition("/")[0])}

    return sources.once(("names", build), find)


def run_error(sources, error):
    """What stopped the run."""
    if error.number in ("E6",) and sources:
        line = (sources.text("rules.schema").split("\n") + [""] * int(error.detail or 1))[int(error.detail or 1) - 1]
        types = "string int bool string_list label label_list output output_list".split()
        words = line.split(" ")
        if words[:1] == ["attr"] and len(words) > 2 and words[2] not in types:
            near = nearest(words[2], types) or (difflib.get_close_matches(words[2], types, 1, 0.3) or [""])[0]
            return f": rules.schema:{error.detail}: there is no type '{words[2]}'" + (f" (did you mean '{near}'?)" if near else "")
        before = sources.text("rules.schema").split("\n")[:int(error.detail or 1) - 1]
        if words[:1] == ["attr"] and not any(it.startswith("rule ") for it in before):
            return f": rules.schema:{error.detail}: 'attr' comes before any 'rule'"
        return f": rules.schema:{error.detail}: {line.strip() or 'an empty declaration'}"
    texts = {
        "E1": ": the system refused memory: give the process more, or leave directories out by .bazelignore",
        "E2": ": the directory, or a file in it, is not there or can't be read" if not sources else ": a file or directory of the workspace can't be read",
        "E3": ": the answer could not be written: the disk is full, or the reader of the pipe has ended",
        "E4": ": standard input is no bundle (bzlq bundle TREE writes one, and --dir TREE reads a directory), or there are more than 65,536 files: add --large",
        "E7": ": more than 16,384 BUILD and .bzl files, or 262,144 loads: add --large, or leave directories out by .bazelignore",
    }
    return texts.get(error.number, f": {error.detail}" if error.detail else "")


def explained(sources, faults, error, query):
    """What is said after an error's number and name."""
    number, detail = error.number, error.detail
    if number == "Q1":
        return syntax(query) if query else ""
    if number == "Q2":
        return word(query, detail, f"there is no function '{detail}'{did_you_mean(detail, ARGUMENTS)}")
    if number == "Q3":
        return left_out(query, detail)
    if number == "Q4":
        return regex(query)
    if number == "Q5" and sources:
        return no_target(sources, faults, detail)
    if number == "Q6" and sources:
        return f": {detail}: {package_missing(sources, detail)}"
    if number == "Q7":
        return word(query, f"${detail}", f"no let around it binds ${detail}")
    if number == "Q8":
        return wrong_arguments(query)
    return run_error(sources, error) if number.startswith("E") else f": {detail}" if detail else ""
