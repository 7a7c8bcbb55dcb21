"""Tries bzlq affected --audit: the lists of the last commits, and beside them what a Bazel says; the one that stands here has a file more in its rules
than bq knows of, and no answer for one commit."""
import json
import os

from histories import GIT, Project

FILES = {"WORKSPACE": "", "rules.schema": "rule lib\nattr srcs label_list\nattr deps label_list\n\nrule lib_test\nattr srcs label_list\nattr deps label_list\n",
         "a/BUILD": 'lib(name = "a", srcs = ["a.c"])\nlib_test(name = "a_test", srcs = ["t.c"], deps = [":a"])\n', "a/a.c": "", "a/t.c": "", "a/hidden": "1\n", "b/BUILD": 'lib_test(name = "b_test")\n'}
# answers as Bazel does, from the facts of bq
BAZEL = """#!/usr/bin/env python3
import json, os, subprocess, sys
from xml.sax.saxutils import quoteattr
if sys.argv[1] == "shutdown":
    open(os.environ["STOPPED"], "w").close()
    sys.exit(0)
assert sys.argv[1:] == ["query", "--noshow_progress", "--output=xml", "//...:*"], sys.argv
if os.path.exists("broken"):
    sys.exit("ERROR: no answer")
said = subprocess.run([os.environ["BZLQ_BQ"], "--dir", ".", "--facts"], capture_output=True, check=False).stdout
print('<?xml version="1.1" encoding="UTF-8" standalone="no"?>\\n<query version="2">')
for it in map(json.loads, said.splitlines()):
    if it.get("kind") == "source file":
        print(f"<source-file name={quoteattr(it['target'])}/>")
    elif "target" in it:
        more = open("a/hidden").read() if it["target"] == "//a:a" else ""
        print(f"<rule class={quoteattr(it['kind'].removesuffix(' rule'))} name={quoteattr(it['target'])}><string name='x' value={quoteattr(str(it['attributes']) + more)}/>")
        print("".join(f"<rule-input name={quoteattr(dep)}/>" for dep in it["deps"]) + "</rule>")
print("</query>")
"""


def steps(project):
    """The commits, after the first one."""
    for subject, path, text in (("a source", "a/a.c", "int a;\n"), ("a test", "b/BUILD", 'lib_test(name = "b_test", deps = ["//a"])\n'), ("hidden \x1b", "a/hidden", "2\n"),
                                ("broken", "broken", ""), ("a fault", "b/BUILD", "x\n")):
        project.write(path, text)
        project.git("add", "--all")
        project.git("commit", "-q", "-m", subject)


def check(bench):
    """Tries all of it."""
    project = Project(bench, "project", FILES)
    steps(project)
    bench.environment = {**bench.environment, "STOPPED": f"{bench.room}/stopped"}
    commits = project.git("log", "--reverse", "--format=%h", "--abbrev=10").decode().split()[1:]
    found, errors, status = bench.run("bzlq affected --audit 4 --tests", "project")
    bench.compare("the lists", found, f"{commits[1]} 1 of 2: a test\n  //b:b_test\n{commits[2]} 0 of 2: hidden \x1b\n{commits[3]} 0 of 2: broken\n"
                  f"{commits[4]} 0 of 2, and targets may be missing: a fault\n")
    bench.compare("what they come to", (errors, status), (f"affected: {commits[4]}: head: b/BUILD:1: F20 UnknownName x\n"
                  "affected: 4 commits: 1 of 8 targets listed (12.5 %); 1 where targets may be missing\n", 3))
    found, errors, status = bench.run("bzlq affected --audit 9 --head HEAD~2", "project")
    bench.compare("fewer commits than are asked for", (found.splitlines()[:2], errors, status),
                  ([f"{commits[0]} 3 of 7: a source", "  //a:a"], "affected: 3 commits: 5 of 21 targets listed (23.8 %); 0 where targets may be missing\n", 0))
    with open(f"{bench.room}/bazel", "w", encoding="utf-8") as file:
        file.write(BAZEL)
    os.chmod(f"{bench.room}/bazel", 0o755)
    found, errors, status = bench.run(f"bzlq affected --audit 5 --json --bazel {bench.room}/bazel", "project")
    told = [json.loads(line) for line in found.splitlines()]
    bench.compare("beside Bazel", [(it["subject"], it["missing"], it["more"]) for it in told],
                  [("a source", [], []), ("a test", [], []), ("hidden \x1b", ["//a:a", "//a:a_test", "//b:b_test"], []),
                   ("broken", None, None), ("a fault", None, None)])
    bench.compare("what is said of Bazel", (errors.splitlines()[-1], status, os.path.exists(f"{bench.room}/stopped")),
                  ("affected: Bazel has answered for 3 of them: 3 missing, 0 more; 1 list said to be whole lacks one", 1, True))
    for words in ("--audit 0", "--audit x", "--audit 2 --base HEAD", "--audit 2 --why"):
        bench.compare(f"affected {words}", bench.run(f"bzlq affected {words}", "project")[::2], ("", 2))
    errors = bench.run("bzlq affected --audit 1", "project")[1]
    bench.compare("one commit is counted", errors.splitlines()[-1], "affected: 1 commit: 0 of 6 targets listed (0.0 %); 1 where targets may be missing")
    bench.compare("the repository is as it was", [project.git(*it) for it in (("status", "--porcelain"), ("worktree", "list", "--porcelain"))][0], b"")
    bench.compare("one commit alone", bench.run(f"{' '.join(GIT)} init -q one; cd one; touch WORKSPACE BUILD; git add -A; {' '.join(GIT)} commit -qm x; bzlq affected --audit 2")[1:],
                  ("affected: there is no commit with one before it\n", 2))
