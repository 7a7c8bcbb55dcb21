"""Tries the regular expressions of the scripts: none takes time out of all proportion to the text that it is given.

They are read from the scripts' own texts. Each is given texts that repeat one or two of the letters that it has; those of bzlq, which reads the files
of strangers, have to take twice as long for twice as much, the others at least to end."""
import ast
import itertools
import os
import re
import signal
import time

from bench import ROOT

FUNCTIONS = ("compile", "search", "match", "fullmatch", "sub", "findall", "finditer", "split")
# letters that are tried with each expression, beside its own
COMMON = "a0_ \n/:\"'\\.(@*"
# how many letters are tried, how long a text is, and in how many seconds a search of it has to end
LETTERS, LONG, SHORT, SECONDS = 8, 6000, 28, 2.0


def expressions():
    """The expressions, each with the place where it stands; a part that is put in is a word."""
    for folder in ("bzlq", "dev", "bench", "tests/scripts", "examples"):
        for at, _, names in sorted(os.walk(f"{ROOT}/{folder}")):
            for name in sorted(names):
                with open(f"{at}/{name}", "rb") as file:
                    text = file.read()
                if name.endswith(".py") or text.startswith(b"#!/usr/bin/env python3"):
                    yield from ((f"{os.path.relpath(at, ROOT)}/{name}:{line}", *found) for line, *found in in_file(text))


def in_file(text):
    """Those of a file, with their lines, and whether they are looked for at each place of a text, or at its beginning alone."""
    tree = ast.parse(text)
    names = {id(node.value): node.targets[0].id for node in tree.body if isinstance(node, ast.Assign) and isinstance(node.targets[0], ast.Name)}
    used = {(node.value.id, node.attr) for node in ast.walk(tree) if isinstance(node, ast.Attribute) and isinstance(node.value, ast.Name)}
    for node in ast.walk(tree):
        match node:
            case ast.Call(func=ast.Attribute(value=ast.Name(id="re"), attr=name), args=[first, *_]) if name in FUNCTIONS:
                if isinstance(first, ast.BinOp) and isinstance(first.op, ast.Mod):
                    first = ast.Constant(re.sub("%[sd]", "word", first.left.value) if isinstance(first.left.value, str) else re.sub(b"%[sd]", b"word", first.left.value))
                if isinstance(first, ast.JoinedStr):
                    first = ast.Constant("".join(it.value if isinstance(it, ast.Constant) else "word" for it in first.values))
                if isinstance(first, ast.Constant):
                    ways = {it for of, it in used if of == names.get(id(node))} if name == "compile" else {name}
                    yield node.lineno, compiled(first.value, node), not ways or not ways <= {"match", "fullmatch"}


def compiled(pattern, node):
    """The expression with its flags."""
    flags = sum(getattr(re, it.attr) for it in ast.walk(node) if isinstance(it, ast.Attribute) and isinstance(it.value, ast.Name) and it.value.id == "re" and it.attr in ("M", "S", "MULTILINE", "DOTALL"))
    return re.compile(pattern, flags)


def texts(pattern, size):
    """Texts of one or two letters that are repeated, with another end."""
    own = pattern.pattern if isinstance(pattern.pattern, str) else pattern.pattern.decode("latin-1")
    letters = list(dict.fromkeys([*COMMON, *re.sub(r"\\[wdsbS]", "", own)]))[:LETTERS + len(COMMON)]
    heads = {it for it in re.findall(r"[\w@=\"'/ ]{2,}", re.sub(r"\\.|\(\?P<\w+>", " ", own))}
    for one, two in itertools.product(letters, letters):
        yield (one + two) * (size // 2) + "\0"
    for head, letter in itertools.product(sorted(heads)[:6], letters):
        yield head + letter * size + "\0"
        yield (head + letter) * (size // (len(head) + 1) + 1) + "\0"


def longest(pattern, size, is_everywhere=True):
    """The text that takes longest, and how long that is."""
    def end(*_):
        raise TimeoutError

    before, worst, most = signal.signal(signal.SIGVTALRM, end), "", 0.0
    try:
        for text in texts(pattern, size):
            given = text if isinstance(pattern.pattern, str) else text.encode("latin-1", "replace")
            signal.setitimer(signal.ITIMER_VIRTUAL, SECONDS)
            start = time.process_time()
            try:
                for _ in itertools.islice(pattern.finditer(given), 100_000) if is_everywhere else [pattern.match(given), pattern.fullmatch(given)]:
                    pass
            except TimeoutError:
                return text, float("inf")
            finally:
                signal.setitimer(signal.ITIMER_VIRTUAL, 0)
            took = time.process_time() - start
            worst, most = (text, took) if took > most else (worst, most)
    finally:
        signal.signal(signal.SIGVTALRM, before)
    return worst, most


def check(bench):
    """Tries each of them."""
    found = {}
    for place, it, is_everywhere in expressions():
        found.setdefault(it, (place, is_everywhere))
    for it, (place, is_everywhere) in found.items():
        is_of_bzlq = place.startswith("bzlq/")
        text, took = longest(it, LONG if is_of_bzlq else SHORT, is_everywhere)
        bench.compare(f"{place}: {it.pattern!r} over {text[:20]!r}..: {took:.2f} s", took < (0.1 if is_of_bzlq else SECONDS), True)
