"""What was made up or left out in the overlay under an answer (arguments.py): takes the texts of the targets' attribute `bzlq_lost`, gives the lines that
tell it, and whether the answer may lack a target."""
import re
import subprocess
from collections import Counter, namedtuple

from bzlq.bq import Facts, ended_by, where_of
from bzlq.facts.query_text import TOKEN
from bzlq.overlay.arguments import ANY, DEFAULTS_ATTRIBUTE, LOST, LOST_ATTRIBUTE, SHOWN
from bzlq.overlay.attribute_defaults import OF_MACROS, rules_with
from bzlq.overlay.guesses import COMMON

WORDS = {
    "kind": "kind made up", "targets": "one target for a macro", "value": "value that isn't there", "edges": "edges by a type that was guessed",
    "files": "files left out", "dict": "dict left out", "select": "one branch of a select",
}
HEADER = re.compile(rb"=== (\d) (\d+) [^\n]*\n")
# queries about what depends on a target, which look through the edges of all that their first arguments depend on
USERS = ("rdeps", "allpaths")
KINDS = re.compile(r"\b(?:kind|tests)\s*\(")
VISIBILITY = re.compile(r"\battr\s*\(\s*[\"']?visibility\b")
IDENTIFIER = re.compile(r"[A-Za-z_]\w*", re.ASCII)
TESTONLY = re.compile(r"\battr\s*\(\s*[\"']?testonly\b")

Ended = namedtuple("Ended", "stdout stderr returncode")


class Lost:
    """How many of an answer's targets are approximations, in all and by the words of LOST; of how many of those that a query looks through edges may be
    missing; how many have a kind that was made up, and are left out for it; how many give no visibility, where one is asked for; how many may be
    testonly by a default, where that is asked for; how many give none of each other attribute that is asked for and may have a default; and how many
    may have more in such an attribute than is known. `absent` are attributes of the query that bq doesn't have."""

    def __init__(self, query, count, some, by_word, inner=0, others=0, unseen=0, unmarked=0, ungiven=None, partial=None):
        self.query, self.count, self.some, self.by_word, self.inner, self.unseen, self.unmarked = query, count, some, by_word, inner, unseen, unmarked
        self.others, self.ungiven, self.partial, self.absent = max(0, others - by_word["kind"]), ungiven or {}, partial or {}, absent_of(query)

    def without_own(self):
        """The same without what the targets of the answer say themselves."""
        self.some, self.by_word = 0, Counter()
        return self

    def may_lack(self):
        """Whether the answer may lack a target."""
        is_lacking = any(self.by_word[word] for word, lacks in LOST.items() if lacks or word == "kind" and KINDS.search(self.query))
        return is_lacking or bool(self.inner or self.others or self.unseen or self.unmarked or self.ungiven or self.partial or self.absent)

    def lines(self, of="this answer"):
        """The lines that say it."""
        if self.some:
            how = ", ".join(f"{what} {self.by_word[word]}" for word, what in WORDS.items() if self.by_word[word])
            yield f"{self.some} of {self.count} targets of {of} {'is an approximation' if self.some == 1 else 'are approximations'}: {how}"
        if self.inner:
            yield f"{self.inner} of the targets that this query looks through may lack edges"
        if self.others:
            yield f"{self.others} of the targets that this query looks through {'has' if self.others == 1 else 'have'} a kind that was made up, and kind(..) leaves {'it' if self.others == 1 else 'them'} out"
        where = "that this query looks through" if of == "this answer" else f"of {of}"
        for name, count in [("visibility", self.unseen), *self.ungiven.items()]:
            if count:
                yield f"{count} of the targets {where} {'gives' if count == 1 else 'give'} no {name}, and attr(..) leaves out what Bazel takes instead"
        for name, count in self.partial.items():
            yield f"{count} of the targets {where} may have more in {name} than is known (by a select, a dict, or a value that isn't there), and attr(..) leaves that out"
        for name in self.absent:
            yield f"bq has no {name}, which Bazel gives the targets of macros, and attr(..) leaves these out: bzlq users MACRO lists them"
        if self.unmarked:
            yield f"{self.unmarked} of the targets {where} may be testonly by a default of Bazel's (tests, default_testonly), and attr(..) takes {'it' if self.unmarked == 1 else 'them'} as not"


def lost_of(query, *words):
    """The query for the targets of a query that have one of these words."""
    return f'attr({LOST_ATTRIBUTE}, "(^.|, )({"|".join(words)}): ", {query})'


def lost_values_of(name, query):
    """The query for the targets of a query of which an attribute may name more than it has."""
    return f'attr({LOST_ATTRIBUTE}, "(^.|, )((value|files): |(select|dict|edges): {re.escape(name)}([^a-zA-Z0-9_]|$))", {query})'


def unseen_of(query):
    """The query for the targets of a query that give no visibility."""
    return f'kind(" rule$", {query}) - attr(visibility, "[^\\[\\]]", {query})'


def ungiven_of(name, pattern, query, place):
    """The query for the targets of a query of which an attribute may have a default that its type doesn't say, and that a search tells from the type's;
    empty where there are none."""
    if name == "deprecation" and place:
        from bzlq.overlay.package_defaults import packages_with  # (not at the top: it reads files)
        packages = packages_with("default_deprecation", place)
        return f'kind(" rule$", {query}) ^ {all_in(packages)}' if packages else ""
    rules = rules_with(name, pattern)
    found = [f'kind("^({"|".join(rules)}) rule$", {query})'] if rules else []
    if IDENTIFIER.fullmatch(name) and name not in COMMON:
        found += [hidden_of(name, query), lost_of(query, "kind", "targets")]
    return " + ".join(found)


def hidden_of(name, query):
    """The query for the targets of a query whose rules have a default of this attribute that isn't known, or may have the attribute."""
    of = lambda element: f'attr({DEFAULTS_ATTRIBUTE}, "[\\[ ]{element}[,\\]]", {query})'  # noqa: E731
    return f"({of(f'({name}|[{ANY}])')} - {of(f'{SHOWN}{name}')})"


def absent_of(query):
    """The attributes that a query asks for, and bq doesn't have."""
    return sorted({it[0].strip("\"'") for it in arguments_of(query, "attr")} & {*OF_MACROS}) if OF_MACROS[0][:10] in query else []


def all_in(packages):
    """The query for the rules of packages."""
    return f"set({' '.join(f'{chr(34)}{it}:all{chr(34)}' for it in packages)})"


def unmarked_of(query, place):
    """The query for the targets of a query that Bazel may take as testonly though they don't say so: tests, suites of them, and the rules of packages
    with such a default. (Those that give False are among them: a query can't tell them from others.)"""
    found = [f'kind("(_test|test_suite) rule$", {query})', f'kind("test", {lost_of(query, "kind")})']
    if place:
        from bzlq.overlay.package_defaults import packages_with  # (not at the top: it reads files)
        if packages := packages_with("default_testonly", place):
            found.append(f'kind(" rule$", {query}) ^ {all_in(packages)}')
    return f'({" + ".join(f"({it})" for it in found)}) - attr(testonly, 1, {query})'


def arguments_of(query, function):
    """The arguments of each call of a function in a query, as texts; those with a variable look through all there is."""
    tokens = TOKEN.findall(query)
    for at, token in enumerate(tokens):
        rest = [it for it in enumerate(tokens[at + 1:], at + 1) if not it[1].isspace()]
        if token != function or not rest or rest[0][1] != "(":
            continue
        depth, starts = 0, [rest[0][0] + 1]
        for place, it in rest:
            depth += (it == "(") - (it == ")")
            if depth == 1 and it == ",":
                starts.append(place + 1)
            if not depth:
                texts = ("".join(tokens[start:end - 1]).strip() for start, end in zip(starts, [*starts[1:], place + 1]))
                yield ["//..." if "$" in text else text for text in texts]
                break


class LookedThrough(namedtuple("LookedThrough", "edges kinds seen only given partial")):
    """The queries for what was lost of the targets that a query looks through: those by whose edges it goes, those of whose kinds, those of whose
    visibility, those of which it asks whether they are testonly, those of which it asks for another attribute that may have a default, with its name, and
    those of which it asks for one that may have more than is known."""

    def all(self):
        """All of them."""
        return [*self.edges, *self.kinds, *self.seen, *self.only, *(query for _, query in (*self.given, *self.partial))]

    def counts(self, counts, targets):
        """By how many targets each has: of how many edges may be missing, how many have a kind that was made up, how many give no visibility, how many may be
        testonly, how many give none of each other attribute, and how many may have more in one. `targets` gives the facts of a query's targets, for what a
        query can't tell."""
        found, at = [], 0
        for part in self:
            found.append(counts[at:at + len(part)])
            at += len(part)
        edges, kinds, seen, only, given, more = found
        lacking = lambda name, query: sum(name not in it.attributes for it in targets(query))  # noqa: E731
        unmarked, ungiven = max((lacking("testonly", it) for it, count in zip(self.only, only) if count), default=0), {}
        for name, lacks in ((name, lacking(name, query)) for (name, query), count in zip(self.given, given) if count):
            ungiven[name] = max(lacks, ungiven.get(name, 0))
        partial = {}
        for (name, _), count in zip(self.partial, more):
            partial[name] = max(count, partial.get(name, 0))
        without_none = lambda counted: {name: count for name, count in counted.items() if count}  # noqa: E731
        return sum(edges), max(kinds, default=0), max(seen, default=0), unmarked, without_none(ungiven), without_none(partial)


def attributes_in(query):
    """The attributes that a query asks for, each with the pattern and the query of what is asked."""
    return [(it[0].strip("\"'"), unquoted(it[1]), it[2]) for it in arguments_of(query, "attr") if len(it) == 3 and it[2]] if "attr" in query else []


def unquoted(word):
    """A word without its quotes."""
    return word[1:-1] if word[:1] in ("'", '"') and word[-1:] == word[:1] and len(word) > 1 else word


def looking_through(query, place=""):
    """The queries for what a query looks through; those about testonly need the place that it is asked of, a directory or the path of a bundle."""
    query = " ".join(query.split("\n"))
    lacking = [word for word, lacks in LOST.items() if lacks]
    edges = [lost_of(f"deps({it})", *lacking) for it in sorted({it[0] for name in USERS for it in arguments_of(query, name)})]
    # (those that the answer has say it themselves)
    edges += [lost_of(f"deps({it}) - ({query})", *lacking) for it in sorted({", ".join(it) for it in arguments_of(query, "deps")}) if f"deps({it})" != query]
    edges += [lost_values_of(*it) for it in sorted({(it[0].strip("\"'"), it[1]) for it in arguments_of(query, "labels") if len(it) == 2 and it[1]})]
    kinds = {it[1] for it in arguments_of(query, "kind") if len(it) == 2 and it[1]}
    attributes = attributes_in(query)
    seen, only = ({of for name, _, of in attributes if name == asked} for asked in ("visibility", "testonly"))
    given = [(name, asked) for name, pattern, of in sorted({*attributes}) if (asked := ungiven_of(name, pattern, of, place))]
    # (those that the answer has say it themselves)
    partial = [(name, lost_values_of(name, f"({of}) - ({query})")) for name, of in sorted({(name, of) for name, _, of in attributes}) if IDENTIFIER.fullmatch(name)]
    return LookedThrough(edges, [lost_of(it, "kind") for it in sorted(kinds)], [unseen_of(it) for it in sorted(seen)],
                         [unmarked_of(it, place) for it in sorted(only)], given, partial)


class Queries:
    """A query, as `all` has it first, and those for what was lost under it; `place` is the path that it is asked of."""

    def __init__(self, query, place):
        self.query, self.through = " ".join(query.split("\n")), looking_through(query, place)
        self.all = [self.query, lost_of(self.query, *LOST), *(lost_of(self.query, word) for word in LOST), *self.through.all()]

    def lost(self, counts, targets):
        """What was lost, by how many targets each of these queries has; `targets` gives the facts of a query's."""
        own = 2 + len(LOST)
        return Lost(self.query, counts[0], counts[1], dict(zip(LOST, counts[2:own])), *self.through.counts(counts[own:], targets))


class Place:
    """Where runs of bq, with these options, read a workspace: a bundle that is open, or the directory or bundle of a path."""

    def __init__(self, program, options, place):
        self.program = program
        if isinstance(place, str):
            (where, folder), self.path = where_of(place), place
            self.words, self.how = [program, *options, *where], {"cwd": folder}
        else:
            self.path = path_of(place)
            self.words, self.how = [program, *options, "--bundle", self.path], {"pass_fds": [place.fileno()]}

    def session(self, queries):
        """How a session with these queries ends, and its blocks."""
        text = "".join(f"{it}\n" for it in queries).encode("utf-8", "surrogateescape")
        ended = subprocess.run([*self.words, "--queries", "-"], input=text, capture_output=True, check=False, **self.how)
        return ended, list(blocks_of(ended.stdout))

    def counts(self, queries):
        """How many lines the answer of each of these queries has."""
        ended, blocks = self.session(queries) if queries else (None, [])
        if len(blocks) != len(queries):
            raise ended_by(self.program, ended.returncode, ended.stderr.decode("utf-8", "replace").splitlines(), "--queries")
        return [len(lines) for _, lines in blocks]

    def targets(self, query):
        """The facts of a query's targets."""
        words = [*self.words, "--facts", "--", query.encode("utf-8", "surrogateescape")]
        ended = subprocess.run(words, stdin=subprocess.DEVNULL, capture_output=True, check=False, **self.how)
        if ended.returncode not in (0, 3):
            raise ended_by(self.program, ended.returncode, ended.stderr.decode("utf-8", "replace").splitlines(), "--facts")
        return Facts.of_lines(ended.stdout.splitlines()).targets.values()

    def lost(self, query, targets):
        """What was lost of these targets of facts, which a query has, and of those that it looks through."""
        found, through = [{it.partition(":")[0] for it in target.lost} for target in targets], looking_through(query, self.path)
        return Lost(query, len(found), sum(map(bool, found)), Counter(word for words in found for word in words),
                    *through.counts(self.counts(through.all()), self.targets))

    def ask(self, query, more=()):
        """Runs a query, and in the same session those for what was lost under it, and more; gives how a run of the query alone would end, the `Lost`,
        and the blocks of the others."""
        queries = Queries(query, self.path)
        ended, blocks = self.session([*queries.all, *more])
        if len(blocks) != len(queries.all) + len(more):
            return ended, None, []
        blocks, further = blocks[:len(queries.all)], blocks[len(queries.all):]
        status, lines = blocks[0]
        if status == 2:
            return Ended(b"", ended.stderr + b"".join(lines), 2), None, further
        return Ended(b"".join(lines), ended.stderr, status), queries.lost([len(lines) for _, lines in blocks], self.targets), further


def path_of(bundle):
    """A path of an open bundle."""
    return f"/dev/fd/{bundle.fileno()}"


def blocks_of(text):
    """The status and the lines of each block that a session wrote."""
    lines, at = text.splitlines(keepends=True), 0
    while at < len(lines) and (found := HEADER.fullmatch(lines[at])):
        count = int(found[2])
        yield int(found[1]), lines[at + 1:at + 1 + count]
        at += 1 + count
