"""Tries docs/TOOLS.md: its commands are run, and have to write what is below them; each mistake of mistakes.py has to get the lines that stand there
beside Bazel's."""
import os
import re
import shutil

from bench import CALL, ROOT
from histories import Project
from mistakes import MISTAKES, WORKSPACE

PAGE = f"{ROOT}/docs/TOOLS.md"
CYCLE = {"a/BUILD": 'filegroup(name = "a", srcs = ["//b"])\n', "b/BUILD": 'filegroup(name = "b", srcs = ["//c", ":b.c"])\n',
         "c/BUILD": 'filegroup(name = "c", srcs = ["//a"])\n'}
SEEN = {"WORKSPACE": "", "app/BUILD": 'filegroup(name = "app", srcs = ["//log"], data = ["//log:gen"])\n',
        "log/BUILD": 'package_group(\n    name = "users",\n    packages = ["//app/..."],\n)\nfilegroup(\n    name = "log",\n    visibility = [":users"],\n)\n'
                     'filegroup(\n    name = "gen",\n    visibility = ["//visibility:private"],\n)\n'}
BEGIN, END = "<!-- tests/scripts/run writes from here -->\n", "<!-- to here -->\n"


def mistakes(bench):
    """The table of mistakes: what Bazel says, and what the hints say."""
    lines = ["| mistake | Bazel 4.2.3 | `bq` with `bzlq hints` |", "|---|---|---|"]
    for what, (files, query, bazel) in MISTAKES.items():
        bench.lay_out("w", {**WORKSPACE, **files})
        if bazel.startswith("INFO"):
            errors = bench.run(f"bzlq --jobs 1 '{query}'", "w")[1]
        else:
            errors = bench.run("bq --dir w \"$QUERY\" 2>&1 >/dev/null | bzlq hints w --query \"$QUERY\"".replace("$QUERY", query.replace('"', '\\"')))[0]
        said = "<br>".join(f"`{line.replace('w/', 'W/') or ' '}`" for line in errors.replace("|", "\\|").splitlines() if not line.startswith("bzlq: reading"))
        lines.append(f"| {what} | {cell(bazel)} | {said or 'answers'} |")
    return "".join(f"{line}\n" for line in lines)


def cell(text):
    """A text as a cell of a table."""
    shown = text.replace("|", "\\|")
    return (f"`` {shown} ``" if "`" in shown else f"`{shown}`") if shown else "answers"


def page(bench, table):
    """The page with its commands' outputs and the table, as they are."""
    bench.lay_out("w", {**WORKSPACE, **MISTAKES["a wrong attribute in a macro"][0]})
    bench.lay_out("workspace", WORKSPACE)
    bench.lay_out("cycle", CYCLE)
    bench.lay_out("seen", SEEN)
    bench.run("bzlq //app", "seen")
    changed = Project(bench, "project", {**WORKSPACE, "README": ""})
    changed.write("log/log.c", "int x;\n")
    changed.write("README", "a word\n")
    changed.git("add", "--all")
    changed.git("commit", "-q", "-m", "log: a variable")
    with open(PAGE, encoding="utf-8") as file:
        before, _, rest = file.read().partition(BEGIN)
    text = before + BEGIN + table + END + rest.partition(END)[2]

    for name, script in re.findall(r"^`(\w+\.py)`:\n\n```python\n(.*?)```", text, re.M | re.S):
        bench.lay_out("scripts", {name: script})
        os.replace(f"{bench.room}/scripts/{name}", f"{bench.room}/{name}")

    def block(found):
        lines = []
        for line in found[1].splitlines():
            if line.startswith("$ "):
                is_drawn = " -o " in line and not shutil.which("dot")
                is_call = "|" not in line and CALL.fullmatch(f"{line[2:]} 2>&1")
                output = "" if is_drawn else bench.run(f"{line[2:]} 2>&1" if is_call else f"exec 2>&1; {line[2:]}")[0]
                lines += [line, *output.replace(bench.room, "..").splitlines()]
        return "```console\n" + "".join(f"{line}\n" for line in lines) + "```"

    return re.sub(r"```console\n(.*?)```", block, text, flags=re.S)


def picture(bench, writes):
    """The picture of docs/TOOLS.md, which the page's command has just drawn. What it draws is compared: other versions of graphviz lay it out otherwise."""
    drawn, shown = f"{bench.room}/macros.svg", f"{ROOT}/docs/macros.svg"
    if os.path.exists(drawn):
        if writes:
            shutil.copy(drawn, shown)
        titles = []
        for path in (shown, drawn):
            with open(path, encoding="utf-8") as file:
                titles.append(re.findall(r"<title>(.*?)</title>", file.read()))
        bench.compare("docs/macros.svg", *titles)


def check(bench, writes=False):
    """Compares the page with what it is when it is written anew; or writes it."""
    made = page(bench, mistakes(bench))
    picture(bench, writes)
    if writes:
        with open(PAGE, "w", encoding="utf-8") as file:
            file.write(made)
    with open(PAGE, encoding="utf-8") as file:
        bench.compare("docs/TOOLS.md", "as it is written anew" if file.read() == made else "differs: tests/scripts/run --write", "as it is written anew")
