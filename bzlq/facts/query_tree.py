"""The tree of a query: takes a text that bq takes for a query, gives what it is made of (docs/QUERY.md, "The grammar").

`Word` names targets, `Name` a variable, `Let` binds one, `Sets` joins two queries by an operator, `Call` is a function with its arguments, of which
those that are no queries are texts.
"""
import re
from dataclasses import dataclass

from bzlq.facts.query_functions import takes_word
from bzlq.facts.query_text import TOKEN
from bzlq.hints import labels

OPERATORS = {"+": "+", "union": "+", "^": "^", "intersect": "^", "-": "-", "except": "-"}
BELOW = re.compile(r"(?P<before>(?:@[\w.+~-]*)?//)(?:(?P<path>[^:]*)/)?\.\.\.(?::(?P<which>all|\*|all-targets))?")
EACH = re.compile(r"(?P<package>(?:@[\w.+~-]*)?//[^:]*):(?P<which>all|\*|all-targets)")


@dataclass(frozen=True)
class Word:
    """`package` with `name`, one target; else all targets of a package, or with `is_below` of those below it too, or with `is_rules` their rules."""

    text: str
    package: str
    name: str = ""
    is_below: bool = False
    is_rules: bool = False


@dataclass(frozen=True)
class Name:
    """A variable."""

    name: str


@dataclass(frozen=True)
class Let:
    """A query in which a name stands for another."""

    name: str
    value: object
    body: object


@dataclass(frozen=True)
class Sets:
    """What two queries have together, by an operator: `+`, `^` or `-`."""

    operator: str
    left: object
    right: object


@dataclass(frozen=True)
class Call:
    """A call of a function; one of `set` has words alone."""

    function: str
    arguments: tuple


def word(text):
    """What a word means."""
    if found := BELOW.fullmatch(text):
        before = found["before"].removeprefix("@") if found["before"] == "@//" else found["before"]
        full = f"{before}{found['path'] or ''}"
        return Word(f"{full}{'' if full.endswith('//') else '/'}...", full, is_below=True, is_rules=found["which"] in (None, "all"))
    if found := EACH.fullmatch(text):
        package = found["package"].removeprefix("@") if found["package"].startswith("@//") else found["package"]
        return Word(f"{package}:{found['which']}", package, is_rules=found["which"] == "all")
    repository, package, name = labels.split(text)
    full = labels.joined(repository, package, name)
    return Word(full, full.partition(":")[0], name)


class Reader:
    """The tokens of a query, and how many of them are read."""

    def __init__(self, query):
        self.tokens, self.at = [it for it in TOKEN.findall(query) if not it.isspace()], 0

    def next(self):
        """The next token; nothing at the end."""
        return self.tokens[self.at] if self.at < len(self.tokens) else ""

    def take(self):
        """Reads a token."""
        self.at += 1
        return self.tokens[self.at - 1]

    def query(self):
        """Reads a query."""
        found = self.operand()
        while self.next() in OPERATORS:
            operator = OPERATORS[self.take()]
            found = Sets(operator, found, self.operand())
        return found

    def operand(self):
        """Reads what stands between two operators."""
        text = self.take()
        if text == "let":
            name, _ = self.take(), self.take()
            value, _ = self.query(), self.take()
            return Let(name, value, self.query())
        if text == "(":
            found, _ = self.query(), self.take()
            return found
        if text.startswith("$"):
            return Name(text[1:])
        if self.next() == "(" and text[0] not in "\"'":
            return self.call(text)
        return word(plain(text))

    def call(self, function):
        """Reads the arguments of a function."""
        self.take()
        found = []
        while self.next() != ")":
            if function == "set":
                found.append(word(plain(self.take())))
            else:
                found.append(plain(self.take()) if takes_word(function, len(found)) else self.query())
                if self.next() == ",":
                    self.take()
        self.take()
        return Call(function, tuple(found))


def plain(text):
    """A word without its quotes."""
    return text[1:-1] if text[0] in "\"'" else text


def tree_of(query):
    """The tree of a query."""
    return Reader(query).query()


def words_of(tree):
    """The words of a tree, in their order in the text."""
    if isinstance(tree, Word):
        yield tree
    for it in {Let: ("value", "body"), Sets: ("left", "right")}.get(type(tree), ()):
        yield from words_of(getattr(tree, it))
    for it in tree.arguments if isinstance(tree, Call) else ():
        yield from words_of(it)
