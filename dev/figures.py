"""The figures that the scripts of bench/ measure. Every row is in a file of bench/results, named by day and script: tables with tabs between
their cells, an empty line between tables, and what else was printed on lines that begin with #. docs/MEASURED.md has the rows that a reader
needs: between two marks with the script's name, where it has such marks, else in its text."""
import collections
import contextlib
import datetime
import glob
import io
import os
import re
import statistics
import sys
from contextlib import contextmanager

import kit

RESULTS = f"{kit.ROOT}/bench/results"
PAGE = f"{kit.ROOT}/docs/MEASURED.md"
# columns that say what is measured, beside the first one; the others have what was measured
SAYS_WHAT = {"jobs", "turns", "targets", "query", "over", "edit of"}
# a figure that changed by more than this is printed by itself
CHANGED = 1.1
# a bar between cells: none that is in backquotes
BAR = re.compile(r"\|(?=(?:[^`]*`[^`]*`)*[^`]*$)")
RULE = re.compile(r":?-+:?")
FIGURE = re.compile(r"-?[\d,]+(?:\.\d+)?")


def machine():
    """What figures of today are measured on."""
    with open("/proc/meminfo", encoding="ascii") as lines:
        memory = int(re.search(r"MemTotal:\s*(\d+)", lines.read())[1]) / 2**20
    load = os.getloadavg()[0]
    return f"{datetime.date.today()}, {os.cpu_count()} processors, {memory:.0f} GB, load {load:.1f} before"


def cells_of(line):
    """The cells of a line of a table of Markdown, or None for other text."""
    if not BAR.search(line):
        return None
    framed = line.strip().startswith("|") and line.strip().endswith("|")
    return [it.strip().replace("\\|", "|") for it in BAR.split(line.strip()[1:-1] if framed else line)]


def read_markdown(text):
    """The tables of a text, each a list of rows with the columns' names first, and its other lines."""
    tables, others, open_table = [], [], False
    for line in text.splitlines():
        row = cells_of(line)
        if row is None:
            open_table = False
            if line.strip():
                others.append(line.strip())
        elif not open_table:
            tables.append([row])
            open_table = True
        elif not all(map(RULE.fullmatch, row)):
            tables[-1].append(row)
    return tables, others


def as_markdown(table):
    """A table of Markdown: columns of figures to the right."""
    right = [all(not row[n] or FIGURE.match(row[n]) for row in table[1:]) for n in range(len(table[0]))]
    rule = ["---:" if it and place else "---" for place, it in enumerate(right)]
    rows = [[it.replace("|", "\\|") for it in row] for row in table]
    return "\n".join(f"| {' | '.join(row)} |" for row in [rows[0], rule, *rows[1:]])


def result_file(name, day):
    """The file of what a script measured on a day: for `bench/run --growth` 2026-11-26-run-growth.tsv."""
    return f"{RESULTS}/{day}-{re.sub('[^a-z_]+', '-', name.rpartition('/')[2])}.tsv"


def write_result(path, name, measured_on, tables, others):
    """Writes figures into a file: what was measured, where, and the tables."""
    os.makedirs(os.path.dirname(path), exist_ok=True)
    parts = ["\n".join("\t".join(row) for row in table) for table in tables]
    with open(path, "w", encoding="utf-8") as file:
        file.write(f"# {name}, {measured_on}\n" + "".join(f"# {it}\n" for it in others) + "\n" + "\n\n".join(parts) + "\n")


def read_result(path):
    """The tables of a file of bench/results."""
    with open(path, encoding="utf-8") as file:
        text = "".join(line for line in file if not line.startswith("#"))
    return [[row.split("\t") for row in part.splitlines()] for part in text.strip("\n").split("\n\n") if part.strip()]


def write_page(name, text, path=None):
    """Puts a text between the marks of that name on the page of figures, and says whether it has them."""
    path = path or PAGE
    with open(path, encoding="utf-8") as file:
        page = file.read()
    start, end = f"<!-- {name} -->\n", f"<!-- end of {name} -->\n"
    if not page.count(start) == page.count(end) == 1:
        return False
    before, after = page.partition(start)[0], page.partition(end)[2]
    with open(path, "w", encoding="utf-8") as file:
        file.write(f"{before}{start}{text.strip()}\n{end}{after}")
    return True


def write_figures(name, measured_on, text, brief):
    """Writes the file of all rows, and the page with those of them that `brief` leaves."""
    tables, others = read_markdown(text)
    path = result_file(name, measured_on[:10])
    write_result(path, name, measured_on, tables, others)
    shown = [as_markdown(it) for it in brief(tables) if len(it) > 1]
    head = f"Measured on: {measured_on}. Every row: {os.path.relpath(path, kit.ROOT)}."
    told = os.path.relpath(path, kit.ROOT)
    if not write_page(name, "\n\n".join([head, *others, *shown])):
        told += f"; {os.path.relpath(PAGE, kit.ROOT)} has no marks for {name}, so what it says of these figures is to be changed by hand"
    print(f"written: {told}", file=sys.stderr)


@contextmanager
def kept(name, writes, brief=lambda tables: tables):
    """Prints what is printed inside. With `writes` it goes into a file of bench/results too, and what `brief` leaves of its tables onto the page."""
    if not writes:
        yield
        return
    measured_on, printed, shown = machine(), io.StringIO(), sys.stdout

    class Both(io.TextIOBase):
        def write(self, text):
            shown.write(text)
            return printed.write(text)

        def flush(self):
            shown.flush()

    with contextlib.redirect_stdout(Both()):
        yield
    write_figures(name, measured_on, printed.getvalue(), brief)


def with_columns(table, *names):
    """The columns of these names, which must be there."""
    places = [table[0].index(it) for it in names]
    return [[row[place] for place in places] for row in table]


def dearest(table, column, count):
    """The rows with the greatest figures in a column, the greatest first."""
    place = table[0].index(column)
    return [table[0], *sorted(table[1:], key=lambda row: -(number(row[place]) or 0))[:count]]


def number(cell):
    """The figure that a cell begins with, or None."""
    found = FIGURE.match(cell)
    return float(found[0].replace(",", "")) if found else None


def results_of(name):
    """The files of a script, the oldest first."""
    return sorted(glob.glob(result_file(name, "[0-9]" * 4 + "-[0-9][0-9]-[0-9][0-9]")))


def measured(table):
    """Each figure of a table: by its row's words, and how often these were there before, and its column."""
    names = table[0]
    is_word = [place == 0 or name in SAYS_WHAT for place, name in enumerate(names)]
    found, seen = {}, collections.Counter()
    for row in table[1:]:
        what = ", ".join(cell for cell, word in zip(row, is_word) if word)
        seen[what] += 1
        what += f" ({seen[what]})" if seen[what] > 1 else ""
        found |= {(what, name): number(cell) for name, cell, word in zip(names, row, is_word) if not word and number(cell) is not None}
    return found


def compare(before, after):
    """The lines that say how the figures of one file differ from those of an earlier one: each column as a whole, and each row that changed much."""
    olds = {tuple(table[0]): measured(table) for table in before}
    for table in after:
        old, new = olds.pop(tuple(table[0]), None), measured(table)
        if old is None:
            yield f"{table[0][0]}: a table of the later file alone"
            continue
        times = {key: new[key] / old[key] for key in new if old.get(key)}
        for column in table[0]:
            of_column = sorted(it for (_, name), it in times.items() if name == column)
            if of_column:
                spread = f"{of_column[0]:.2f}, {statistics.median(of_column):.2f}, {of_column[-1]:.2f}"
                yield f"{table[0][0]}: {column}: {len(of_column)} rows, after over before: least, middle and most {spread}"
        for (what, column), it in times.items():
            if not 1 / CHANGED <= it <= CHANGED:
                yield f"  {what}: {column}: {old[what, column]:g}, now {new[what, column]:g}"
        alone = len(old.keys() ^ new.keys())
        if alone:
            yield f"  {alone} figures are in one of the files alone"
    for names in olds:
        yield f"{names[0]}: a table of the earlier file alone"
