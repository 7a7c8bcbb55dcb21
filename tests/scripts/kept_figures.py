"""Tries what becomes of figures that scripts print: a file with every row, the page with some, and how two files differ."""
import os

import figures
import kit

PRINTED = """shape | jobs | clock, s | why
--- | --- | --- | ---
`d | {i: 1}` | 1 | 0.50 |
`d | {i: 1}` | 4 | 0.25 | each copies

| peak | MB |
|---|---:|
| all | 1,024 |
What was left out.
"""
TABLES = [[["shape", "jobs", "clock, s", "why"], ["`d | {i: 1}`", "1", "0.50", ""], ["`d | {i: 1}`", "4", "0.25", "each copies"]], [["peak", "MB"], ["all", "1,024"]]]
SHOWN = """Measured on: 2026-11-29, a machine. Every row: FILE.

What was left out.

| shape | jobs | clock, s | why |
| --- | ---: | ---: | --- |
| `d \\| {i: 1}` | 4 | 0.25 | each copies |
"""
LATER = [[TABLES[0][0], ["`d | {i: 1}`", "1", "1.00", ""], ["new", "1", "0.10", ""]], [["other", "MB"], ["all", "1"]]]
DIFFERENCE = ["shape: clock, s: 1 rows, after over before: least, middle and most 2.00, 2.00, 2.00", "  `d | {i: 1}`, 1: clock, s: 0.5, now 1",
              "  2 figures are in one of the files alone", "other: a table of the later file alone", "peak: a table of the earlier file alone"]


def check(bench):
    """One text that a script printed, on a page with its marks and on one without."""
    before = figures.RESULTS, figures.PAGE
    figures.RESULTS, figures.PAGE = f"{bench.room}/results", f"{bench.room}/page.md"
    try:
        with open(figures.PAGE, "w", encoding="utf-8") as page:
            page.write("# Page\n<!-- bench/x --rows -->\nold\n<!-- end of bench/x --rows -->\nend\n")
        figures.write_figures("bench/x --rows", "2026-11-29, a machine", PRINTED, lambda tables: [[tables[0][0], tables[0][2]]])
        path = f"{figures.RESULTS}/2026-11-29-x-rows.tsv"
        with open(figures.PAGE, encoding="utf-8") as page:
            wanted = f"# Page\n<!-- bench/x --rows -->\n{SHOWN}<!-- end of bench/x --rows -->\nend\n".replace("FILE", os.path.relpath(path, kit.ROOT))
            bench.compare("figures on the page", page.read(), wanted)
        bench.compare("every row in the file", figures.read_result(path), TABLES)
        bench.compare("figures without marks", figures.write_page("bench/y", "x"), False)
        bench.compare("the files of a script", (figures.results_of("bench/x --rows"), figures.results_of("bench/x")), ([path], []))
        bench.compare("two files", list(figures.compare(TABLES, LATER)), DIFFERENCE)
    finally:
        figures.RESULTS, figures.PAGE = before
    for words, status in (("run --write --only text", 2), ("reloads --write --only text", 2), ("hostile --write --only pop", 2), (f"crates --write --only files {bench.program}", 2), ("compare bench/none", 1)):
        bench.compare(f"bench/{words}", bench.run(f"{kit.ROOT}/bench/{words} > /dev/null 2> errors; s=$?; grep -c Traceback errors; exit $s")[::2], ("0\n", status))
