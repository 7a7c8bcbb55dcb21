"""A query as one statement of SQL over the tables `target`, `edge` and `package` of database.py: takes the tree of a query, gives the text.

Of SQL it has what the standard has of 1999 on: common tables, recursive where a query follows edges, and the operators of sets. So other engines
that have these take the same text.
"""
from bzlq.facts.query_tree import Call, Let, Name, Sets, Word
from bzlq.workspace.files import Refused

SETS = {"+": "UNION", "^": "INTERSECT", "-": "EXCEPT"}
RULE = "kind LIKE '% rule'"


def quoted(text):
    """A text as SQL has it."""
    return "'" + text.replace("'", "''") + "'"


def condition(word):
    """The condition that the targets of a word meet."""
    if word.name:
        return f"label = {quoted(word.text)}"
    package = f"package = {quoted(word.package)}"
    if word.is_below:
        first = word.package if word.package.endswith("//") else f"{word.package}/"
        # (a slash comes right before 0)
        package = f"({package} OR package >= {quoted(first)} AND package < {quoted(first[:-1] + '0')})"
    return f"{package} AND {RULE}" if word.is_rules else package


class Statement:
    """The common tables of a statement, each a set of targets by their numbers."""

    def __init__(self, kinds_of):
        self.kinds_of, self.tables = kinds_of, []

    def table(self, select, columns="t"):
        """A further table; gives its name."""
        name = f"s{len(self.tables) + 1}"
        self.tables.append(f"{name}({columns}) AS ({select.replace('SELF', name)})")
        return name

    def closure(self, table, one, other, depth):
        """What edges lead to from a table's targets, followed from one end to the other, at most as many as the depth says."""
        if depth is None:
            return self.table(f"SELECT t FROM {table} UNION SELECT {other} FROM SELF JOIN edge ON {one} = t")
        found = self.table(f"SELECT t, 0 FROM {table} UNION SELECT {other}, n + 1 FROM SELF JOIN edge ON {one} = t WHERE n < {depth}", "t, n")
        return self.table(f"SELECT DISTINCT t FROM {found}")

    def of(self, tree, names):
        """The table of a tree. `names` has those of variables."""
        if isinstance(tree, Word):
            return self.table(f"SELECT id FROM target WHERE {condition(tree)}")
        if isinstance(tree, Name):
            return names[tree.name]
        if isinstance(tree, Let):
            return self.of(tree.body, {**names, tree.name: self.of(tree.value, names)})
        if isinstance(tree, Sets):
            return self.both(self.of(tree.left, names), SETS[tree.operator], self.of(tree.right, names))
        assert isinstance(tree, Call)
        return self.call(tree, names)

    def both(self, one, operator, other):
        """What two tables have together."""
        return self.table(f"SELECT t FROM {one} {operator} SELECT t FROM {other}")

    def call(self, tree, names):
        """The table of a call."""
        if tree.function == "set":
            labels = ", ".join(quoted(it.text) for it in tree.arguments if it.name) or "''"
            return self.table(" OR ".join([f"SELECT id FROM target WHERE label IN ({labels})", *(f"({condition(it)})" for it in tree.arguments if not it.name)]))
        arguments = [it if isinstance(it, str) else self.of(it, names) for it in tree.arguments]
        depth = int(arguments[-1]) if arguments[-1].isdecimal() else None
        match tree.function:
            case "deps":
                return self.closure(arguments[0], "src", "dst", depth)
            case "rdeps":
                return self.both(self.closure(arguments[0], "src", "dst", None), "INTERSECT", self.closure(arguments[1], "dst", "src", depth))
            case "allpaths":
                return self.both(self.closure(arguments[0], "src", "dst", None), "INTERSECT", self.closure(arguments[1], "dst", "src", None))
            case "kind":
                kinds = ", ".join(map(quoted, self.kinds_of(arguments[0]))) or "''"
                return self.table(f"SELECT t FROM {arguments[1]} JOIN target ON id = t WHERE kind IN ({kinds})")
        raise Refused(f"{tree.function} isn't answered over parts; the column `attributes` of the table `target` has what it looks at, as JSON")


def statement(tree, kinds_of):
    """The text of a query's statement, which gives labels and kinds in the order of an answer. `kinds_of` gives the kinds that a pattern has."""
    made = Statement(kinds_of)
    last = made.of(tree, {})
    return "WITH RECURSIVE\n" + ",\n".join(f"  {it}" for it in made.tables) + f"\nSELECT label, kind FROM target WHERE id IN (SELECT t FROM {last}) ORDER BY label"
