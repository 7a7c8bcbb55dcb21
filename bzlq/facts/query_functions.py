"""The functions of queries and their arguments, for all scripts: docs/QUERY.md, "Functions". Of a function that isn't listed a script takes each
argument for a query, and says nothing of how many there may be."""
# the arguments of each; one with a `?` may be left out
ARGUMENTS = {
    "deps": ("x", "depth?"), "rdeps": ("universe", "x", "depth?"), "allpaths": ("from", "to"), "kind": ("pattern", "x"), "filter": ("pattern", "x"),
    "attr": ("name", "pattern", "x"), "labels": ("attribute", "x"),
}
# those of functions of Bazel that are left out, where not all are queries
LEFT_OUT = {"allrdeps": ("x", "depth?"), "some": ("x", "count?")}
# the arguments that are words, and no queries
WORDS = {"pattern", "name", "attribute", "depth", "count"}


def forms(function):
    """How a function is called, as `deps(x) or deps(x, depth)`."""
    least, most = counts(function)
    names = [it.rstrip("?") for it in ARGUMENTS[function]]
    return " or ".join(f"{function}({', '.join(names[:count])})" for count in range(least, most + 1))


def counts(function):
    """How many arguments a function has at least, and at most."""
    arguments = ARGUMENTS[function]
    return sum(not it.endswith("?") for it in arguments), len(arguments)


def takes_word(function, place):
    """Whether the argument at this place is a word, and no query."""
    arguments = ARGUMENTS.get(function) or LEFT_OUT.get(function, ())
    return place < len(arguments) and arguments[place].rstrip("?") in WORDS
