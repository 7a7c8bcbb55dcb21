"""Makes the relative words of a query labels: takes the query, the root and the folder that one stands in; gives the query with labels in full.

`:x` is `//folder:x`, `...` is `//folder/...`, `lib:x` is `//folder/lib:x`; a path without a colon is the label of its package, or of the file or
target there, as `lib/x.c`. Patterns, numbers and names of attributes, functions and variables stay as they are.
"""
import posixpath

from bzlq.facts.query_functions import takes_word
from bzlq.facts.query_text import TOKEN, UNQUOTED
from bzlq.workspace.files import Refused
from bzlq.workspace.root import build_file

# words that people take for operators; a target of such a name needs a colon, or quotes
NO_OPERATORS = ("and", "or", "not")
OPERATORS = ("except", "in", "intersect", "union", "+", "^", "-", "=")


class BadWord(Refused):
    """A word that leads out of the workspace."""


def absolute(query, root, folder):
    """The query with labels in full."""
    tokens = TOKEN.findall(query)
    found, stack, before = [], [], ""
    for at, text in enumerate(tokens):
        after = next((it for it in tokens[at + 1:] if not it.isspace()), "")
        if text == "(":
            stack.append([before, 0])
        elif text == ")" and stack:
            stack.pop()
        elif text == "," and stack:
            stack[-1][1] += 1
        elif is_target(text, before, after, stack):
            text = quoted(label(text.strip("\"'") if text[0] in "\"'" else text, root, folder), text)
        found.append(text)
        before = before if text.isspace() else text
    return "".join(found)


def is_target(text, before, after, stack):
    """Whether a token is a word that stands for targets, and is relative."""
    is_quoted = text[0] in "\"'"
    inner = text[1:-1] if is_quoted else text
    is_word = is_quoted and len(text) > 1 or bool(UNQUOTED.fullmatch(text)) and text not in OPERATORS
    if not is_word or not inner or inner.startswith(("//", "@", "$")):
        return False
    if not is_quoted and (after == "(" or text in ("let", "set") or before == "let" or text in NO_OPERATORS and before not in ("", "(", ",", *OPERATORS)):
        return False
    return not (stack and takes_word(*stack[-1]))


def quoted(text, before):
    """A text in the quotes that the word had, or in some where it needs them."""
    if before[0] in "\"'":
        return before[0] + text + before[0]
    return text if UNQUOTED.fullmatch(text) else f'"{text}"'


def label(word, root, folder):
    """The label or pattern that a relative word stands for."""
    path, colon, name = word.partition(":")
    is_wild = path == "..." or path.endswith("/...")
    path = path[:-3].rstrip("/") if is_wild else path
    full = posixpath.normpath(posixpath.join(folder, path)) if path else folder
    full = "" if full == "." else full
    if full == ".." or full.startswith("../") or word.startswith("/"):
        raise BadWord(f"{word} is not in the workspace")
    if is_wild:
        return f"//{full}/...".replace("///", "//") + colon + name
    if colon:
        return f"//{full}:{name}"
    return of_path(full, root)


def of_path(path, root):
    """The label of a path: of the package there, else of the file or target in the nearest package above."""
    if path and build_file(root, path):
        return f"//{path}"
    directory, parts = path, []
    while directory:
        directory, _, part = directory.rpartition("/")
        parts.insert(0, part)
        if build_file(root, directory) or not directory:
            break
    return f"//{directory}:{'/'.join(parts)}"
