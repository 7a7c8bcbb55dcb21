"""Tries examples/ci: the steps of the workflow in a repository of git."""
import os
import re
import textwrap

from bench import ROOT

LOAD = 'load("@rules_cc//cc:defs.bzl", "cc_library", "cc_test")\n'
WORKSPACE = {
    "WORKSPACE": "",
    "lib/BUILD": LOAD + 'cc_library(name = "lib", srcs = glob(["*.c"], exclude = ["*_test.c"]))\n'
                        'cc_test(name = "lib_test", srcs = ["lib_test.c"], deps = [":lib"])\n',
    "lib/lib.c": "", "lib/lib_test.c": "", "lib/a b.c": "",
    "app/BUILD": LOAD + 'cc_library(name = "app", srcs = ["main.c"], deps = ["//lib"])\n'
                        'cc_test(name = "app_test", srcs = ["app_test.c"], deps = [":app"])\n',
    "app/main.c": "", "app/app_test.c": "", "docs/guide.md": "",
}
GIT = "git -c user.name=x -c user.email=x -c init.defaultBranch=main -c core.hooksPath=/dev/null -c commit.gpgsign=false -C project"


def steps():
    """The shell lines of each step of the workflow, by its name."""
    with open(f"{ROOT}/examples/ci/bq.yml", encoding="utf-8") as file:
        found = re.findall(r"^ {6}- name: (.*)\n {8}run: \|\n((?: {10}.*\n)+)", file.read(), re.M)
    return [(name, textwrap.dedent(text)) for name, text in found]


def run_steps(bench, change):
    """What the steps write to their outputs, and their statuses, up to the first that fails, where a commit adds this change."""
    bench.lay_out("ci", {f"project/{path}": text for path, text in WORKSPACE.items()})
    os.makedirs(f"{bench.room}/ci/bq")
    for name, to in (("bq", f"{bench.room}/bin/bq"), ("bzlq", f"{ROOT}/bzlq")):
        os.symlink(to, f"{bench.room}/ci/bq/{name}")
    bench.run(f"{GIT} init -q && {GIT} add . && {GIT} commit -qm base && {GIT} branch base", "ci")
    bench.run(f"{change} && {GIT} commit -qam change", "ci")
    found = []
    for name, text in steps():
        bench.lay_out("step", {"text": text})
        output, errors, status = bench.run("BASE=base GITHUB_STEP_SUMMARY=summary bash --noprofile --norc -eo pipefail ../step/text", "ci")
        found.append((name, output if name != "Read the workspace" else "", errors, status))
        if status:
            break
    return found


def check(bench):
    """The steps of the workflow, for a change of a file and for one that makes a fault."""
    read, tests = ("Read the workspace", "", "", 0), "//app:app_test\n"
    last = ("Tests that the change concerns", tests, "affected: 1 changed target, 0 deleted, 1 affected\n", 0)
    bench.compare("a change of a file", run_steps(bench, "echo >> project/app/main.c"), [read, ("Faults", "", "", 0), last])
    bench.compare("its summary", bench.run("cat ci/summary")[0], tests)
    fault = "app/BUILD:2:53: F79 DanglingLabel: package 'lib' has no target 'lob' (did you mean 'lib'?)\n"
    bench.compare("a change with a fault", run_steps(bench, "sed -i s,//lib,//lib:lob, project/app/BUILD"), [read, ("Faults", fault, "", 3)])
