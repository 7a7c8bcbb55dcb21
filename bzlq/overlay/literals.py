"""Values that expressions show, without anything being run: takes the tree of an expression, gives its value."""
import ast

# how long the text of a default may be, and how many terms a sum may have
MOST_OF_DEFAULT, MOST_TERMS = 1000, 100
# expressions that may show a default
SHOWN = (ast.Constant, ast.List, ast.UnaryOp, ast.BinOp)


def literal(node):
    """Whether an expression shows its value, and the value; lists may be joined by `+`."""
    if isinstance(node, ast.BinOp) and isinstance(node.op, ast.Add):
        (is_left, left), (is_right, right) = literal(node.left), literal(node.right)
        is_shown = is_left and is_right and type(left) is type(right) and isinstance(left, str | list)
        return is_shown, left + right if is_shown else None
    try:
        return True, ast.literal_eval(node)
    except (ValueError, TypeError, SyntaxError, RecursionError, MemoryError):
        return False, None


def summed(node):
    """The terms of a sum, from the left; the sum itself where it has too many."""
    found = []
    while isinstance(node, ast.BinOp) and len(found) < MOST_TERMS:
        found.append(node.right)
        node = node.left
    return [ast.Constant(...)] if isinstance(node, ast.BinOp) else [node, *reversed(found)]


def constant(node):
    """A tuple of the value of an expression, if that shows it and data can have it as a default: None, a number, a text, a list of texts, an empty dict; else
    an empty tuple."""
    if isinstance(node, ast.Dict):
        return () if node.keys else ({},)
    if not isinstance(node, SHOWN) or len(getattr(node, "elts", ())) > MOST_OF_DEFAULT or isinstance(node, ast.BinOp) and len(summed(node)) == 1:
        return ()
    is_shown, value = literal(node)
    match value:
        case None | bool() if is_shown:
            return (value,)
        case int() if abs(value) < 1 << 31:
            return (value,)
        case str() if is_text(value):
            return (value,)
        case list() if all(map(is_text, value)) and sum(map(len, value)) <= MOST_OF_DEFAULT:
            return (value,)
    return ()


def is_text(value):
    """Whether a value is a text of no odd characters, and not too long."""
    return isinstance(value, str) and len(value) <= MOST_OF_DEFAULT and value.isprintable()
