"""Faults of a file's tokens and of its grammar: takes the text and the line that `bq` named; gives line, column and reason.

The text is cut into strings, comments, brackets and all else, as docs/LANGUAGE.md, "Tokens", has it.
"""
import ast
import re
import warnings
from dataclasses import dataclass

PIECE = re.compile(
    r"""(?P<comment>\#[^\n]*)|(?P<string>[rR]?(?:\"\"\"(?:[^\\]|\\.)*?\"\"\"|'''(?:[^\\]|\\.)*?'''|"(?:[^"\\\n]|\\.)*"|'(?:[^'\\\n]|\\.)*'))"""
    # (what follows quotes that are never closed is looked at once)
    r"""|(?P<open>[rR]?(?:\"\"\"|'''|["']))(?:(?<=\"\"\")(?:[^\\]|\\.)*|(?<=''')(?:[^\\]|\\.)*|(?<=\")(?:[^"\\\n]|\\.)*|(?<=')(?:[^'\\\n]|\\.)*)|(?P<number>\.?\d[\w.]*)|(?P<word>\w+)|(?P<bracket>[()\[\]{}])|(?P<line>\n)|(?P<rest>.)""", re.S)
PAIRS = {")": "(", "]": "[", "}": "{"}
NUMBER = re.compile(r"0|[1-9]\d*|0[xX][0-9a-fA-F]+|0[oO][0-7]+")
RESERVED = set("as assert async await class del except finally from global import is nonlocal raise try while with yield".split())
LIMIT = 1 << 20


@dataclass
class Piece:
    """A piece of a text: its kind, its text and its place."""
    kind: str
    text: str
    line: int
    column: int


def pieces(text):
    """The pieces of a text with their places."""
    line, start = 1, 0
    for found in PIECE.finditer(text):
        yield Piece(found.lastgroup, found[found.lastgroup], line, found.start() - start + 1)
        if breaks := found[0].count("\n"):
            line, start = line + breaks, found.start() + found[0].rfind("\n") + 1


def bad_byte(text, line):
    """A byte that begins no token."""
    for it in pieces(text):
        is_odd = it.kind == "rest" and (it.text in "$?`" or it.text == "@" or not " " <= it.text <= "~" and it.text not in "\t\r")
        if it.line == line and (is_odd or it.kind == "rest" and it.text in "!\\" or it.kind == "word" and not it.text.isascii()):
            odd = next((byte for byte in it.text if not byte.isascii()), it.text)
            shown = f"'{odd}'" if odd.isascii() and odd.isprintable() else f"the byte 0x{ord(odd):02x}"
            return it.line, it.column, f"{shown} begins no token: outside strings and comments a file is ASCII"
    return None


def width(text):
    """How far a line is indented."""
    return len(text) - len(text.lstrip(" "))


def indent(text, line):
    """A line that is indented as none around it is."""
    lines = text.split("\n")
    open_widths = sorted({width(it) for it in lines[:line - 1] if it.strip() and not it.strip().startswith("#")})
    at = width(lines[line - 1])
    near = [it for it in open_widths if it < at][-1:] + [it for it in open_widths if it > at][:1]
    return line, at + 1, f"indented by {at}, and no line around it is" + (f": {' or '.join(map(str, near))} are" if near else "")


def tab(text, line):
    """A tab in the indentation of a line."""
    return line, text.split("\n")[line - 1].find("\t") + 1, "a tab in the indentation, which is spaces alone"


def open_string(text, line):
    """A string that is never closed."""
    for it in pieces(text):
        if it.kind == "open" and it.line == line:
            return it.line, it.column, f"the string that {it.text} begins is never closed" + (" in its line" if len(it.text.lstrip("rR")) == 1 else "")
    return None


def escape(text, line):
    """A backslash that begins no escape."""
    for it in pieces(text):
        if it.kind != "string" or it.text[0] in "rR" or not it.line <= line <= it.line + it.text.count("\n"):
            continue
        at, end = it.line, 0
        for found in re.finditer(r"\\(.)", it.text, re.S):
            at, end = at + it.text.count("\n", end, found.start()), found.start()
            if found[1] not in "nrt\\'\"\n\r" and at == line:
                before = it.text[:found.start()]
                column = it.column + len(before) if "\n" not in before else len(before) - before.rfind("\n")
                return at, column, f"'{found[0]}' is no escape: write '\\{found[0]}', or r before the quotes"
    return None


def bad_number(text, line):
    """What begins as a number and is none."""
    for it in pieces(text):
        if it.kind != "number" or it.line != line:
            continue
        if not NUMBER.fullmatch(it.text):
            cure = f": write 0o{it.text.lstrip('0')} or {int(it.text)}" if re.fullmatch("0[0-7]+", it.text) else ": there are no floats" if "." in it.text else ""
            return it.line, it.column, f"'{it.text}' is no number{cure}"
        if int(it.text, 0) > (1 << 63) - 1:
            return it.line, it.column, f"{it.text} is greater than 9223372036854775807"
    return None


def bracket(text, line):
    """The bracket that has no partner, and the one that may lack its own."""
    opened = []
    for it in pieces(text):
        if it.kind != "bracket":
            continue
        if it.text in "([{":
            opened.append(it)
        elif not opened:
            return it.line, it.column, f"'{it.text}' closes no bracket"
        elif opened[-1].text != PAIRS[it.text]:
            return it.line, it.column, f"'{it.text}' can't close the '{opened[-1].text}' of line {opened[-1].line}"
        else:
            opened.pop()
    found = [it for it in opened if it.line == line] or opened
    return (found[-1].line, found[-1].column, f"'{found[-1].text}' is never closed") if found else None


def too_long(text, line):
    """A file with too many bytes."""
    return line, 1, f"the file has {len(text):,} bytes, and {LIMIT:,} are allowed"


def statement_end(text, line):
    """The line after the statement that begins at this one."""
    lines, depth, at = text.split("\n") + [""], 0, line
    for it in pieces(text):
        if it.line < line:
            continue
        if it.kind == "bracket":
            depth += 1 if it.text in "([{" else -1
        if it.kind == "line" and depth <= 0 and not lines[it.line].startswith((" ", "\t")):
            return it.line + 1
        at = it.line
    return at + 1


def syntax(text, line):
    """What Python's own parser says of the statement; else the first word that Starlark reserves."""
    lines = text.split("\n")
    part = "\n" * (line - 1) + "\n".join(lines[line - 1:statement_end(text, line) - 1]) + "\n"
    try:
        with warnings.catch_warnings():
            warnings.simplefilter("ignore")
            if found := left_out(ast.parse(part)):
                return found
    except SyntaxError as error:
        message = error.msg.replace("invalid syntax. Perhaps you forgot a comma?", "a comma is missing").replace(" here. Maybe you meant '==' instead of '='?", ": is '==' meant?")
        return missing_comma(part) or wrong_sign(part) or (error.lineno or line, error.offset or 1, message)
    except (ValueError, RecursionError, MemoryError):
        pass  # (it nests too deep for Python)
    for it in pieces(text):
        if it.kind == "word" and it.text in RESERVED and it.line >= line:
            return it.line, it.column, f"'{it.text}' is reserved, and no part of Starlark"
    return letter_before(part) or missing_comma(part) or trailing(part, line)


def left_out(tree):
    """The place of what Python's grammar has and Starlark's hasn't; nothing where there is none."""
    for node in ast.walk(tree):
        match node:
            case ast.Compare(comparators=[first, _, *_]):
                return first.lineno, first.col_offset + 1, "one comparison doesn't follow another: write a < b and b < c"
            case ast.Call(func=ast.Name(id="load"), args=[_, *symbols]):
                for it in symbols:
                    if isinstance(it, ast.Constant) and it.value == "*":
                        return it.lineno, it.col_offset + 1, "load takes no '*': name each symbol"
    return None


def missing_comma(text):
    """The place in brackets where a comma is missing; nothing where none is."""
    real = [it for it in pieces(text) if it.kind not in ("line", "comment") and it.text not in (" ", "\t")]
    depth = 0
    for before, after in zip(real, real[1:]):
        if before.kind == "bracket":
            depth += 1 if before.text in "([{" else -1
        is_value = before.kind in ("string", "number") or before.text in ")]}" and before.kind == "bracket"
        is_next = after.kind == "string" or after.kind == "word" and after.text not in ("if", "else", "for", "in", "and", "or", "not", "is")
        if depth > 0 and is_value and is_next:  # (strings side by side are not joined)
            return before.line, before.column + len(before.text), f"a comma is missing between {shown(before)} and {shown(after)}"
    return None


def wrong_sign(text):
    """The place of a `=` in a dict, or of a `:` in a call; nothing where none is."""
    opened = []
    real = [it for it in pieces(text) if it.kind not in ("line", "comment") and it.text not in (" ", "\t")]
    for before, it, after in zip([None, *real], real, [*real[1:], None]):
        if it.kind == "bracket" and it.text in "([{":
            opened.append(it.text)
        elif it.kind == "bracket" and opened:
            opened.pop()
        is_value = before is not None and before.kind in ("word", "string", "number")
        if it.text == "=" and is_value and opened[-1:] == ["{"] and after is not None and after.text != "=":
            return it.line, it.column, f"a dict has ':' between a key and its value: write {shown(before)}: .."
        if it.text == ":" and is_value and before.kind == "word" and opened[-1:] == ["("] and "lambda" not in text:
            return it.line, it.column, f"a call has '=' between a name and its value: write {shown(before)} = .."
    return None


def letter_before(text):
    """The place of a text with a letter before it that Starlark doesn't have, as an f-string; nothing where none is."""
    found = list(pieces(text))
    for before, after in zip(found, found[1:]):
        if before.kind == "word" and after.kind == "string" and before.line == after.line and before.column + len(before.text) == after.column:
            if "f" in before.text.lower():
                return before.line, before.column, 'f-strings are left out: write "..%s" % x, or "..{}".format(x)'
            return before.line, before.column, f"a text has no '{before.text}' before it"
    return None


def shown(piece):
    """The text of a piece, cut where it is long."""
    return piece.text if len(piece.text) <= 20 else piece.text[:17] + "..."


def trailing(text, line):
    """A comma at the end of a statement; or that there is no such statement."""
    real = [it for it in pieces(text) if it.kind not in ("line", "comment") and it.text not in (" ", "\t")]
    if real and real[-1].text == ",":
        return real[-1].line, real[-1].column, "a trailing comma is allowed inside brackets alone"
    return line, 1, "Starlark's grammar has no such statement"


def nesting(text, line):
    """The bracket that is one too many."""
    depth = 0
    for it in pieces(text):
        if it.line >= line and it.kind == "bracket":
            depth += 1 if it.text in "([{" else -1
            if depth > 64:
                return it.line, it.column, "more than 64 brackets and indents are open here"
    return None


SCANS = {"F1": bad_byte, "F2": indent, "F3": tab, "F4": open_string, "F5": escape, "F6": bad_number, "F7": bracket, "F8": too_long,
         "F10": syntax, "F11": nesting}
