"""Tries the words of bzlq that go on: ask, in a pipe and on a terminal, and watch; and of what completes words in shells."""
import os
import pty
import select
import shutil
import signal
import subprocess
import threading
import time
from unittest import mock

from bench import ROOT
from bzlq.cli import changes

FILES = {
    "WORKSPACE": "", "app/BUILD": 'load("//tools:m.bzl", "both")\nboth("app")\n', "app/main.c": "", "log/BUILD": 'filegroup(name = "log", srcs = ["log.c"])\n', "log/log.c": "",
    "tools/BUILD": "", "tools/m.bzl": 'def both(name):\n    native.filegroup(name = name, srcs = ["//log"])\n    native.filegroup(name = name + "_more", srcs = ["main.c"])\n',
    "log/deep/BUILD": "", "f/BUILD": "1 // 0\n", "docs/more/x": "", ".bazelignore": "ignored\n", "ignored/BUILD": "",
}
# how long something may take until it is there, in seconds
PATIENCE = 60
FAULT = "f/BUILD:1:1: F42 DivZero: 1 // 0\n"
# the lines that are asked, what is written to both outputs, and the status
ASKED = (
    (":app\n", "//app:app\n", FAULT.replace("f/", "../f/"), 3),
    ("# a comment\n\n  deps(:app) - :app\nowner ../log/log.c\n", "//log:log\n//log:log.c\n//log:log\n", None, 3),
    ("query :app\nexit\n:more\n", "//app:app\n", None, 3),
    ("why :app //log:log.c\n", "BUILD:2: //app:app -> //log:log (srcs)\n../log/BUILD:1: //log:log -> //log:log.c (srcs)\n", None, 3),
    (":ap\n:app_more\n", "//app:app_more\n", FAULT.replace("f/", "../f/") + "bq: Q5 NoSuchTarget: //app:ap: package 'app' has no target 'ap' (did you mean 'app'?)\n", 2),
    ("deps(\n../../x\nkind('libary', :all)\n", "", FAULT.replace("f/", "../f/") + "bq: Q1 Syntax\n    deps(\n        ^ this parenthesis is never closed\nbzlq: ../../x is not in the workspace\n"
     "bzlq: nothing matches: no rule of the workspace has a kind like 'libary'\n", 2),
    ("build :app\n--jbos 3 :app\n", "", None, 2),
    ("--output label_kind :app\n", "filegroup rule //app:app\n", None, 3),
)


def ask(bench):
    """Questions in a pipe: answers alone, each of the files as they are."""
    bench.lay_out("ws", FILES)
    bench.run("bzlq //log", "ws")
    for lines, output, errors, status in ASKED:
        found = bench.run("bzlq ask", "ws/app", lines.encode())
        bench.compare(f"bzlq ask, {lines!r}", (found[0], found[1] if errors is not None else None, found[2]), (output, errors, status))
    bench.compare("bzlq ask --output", bench.run("bzlq ask --output label_kind", "ws/app", b":app\n")[::2], ("filegroup rule //app:app\n", 3))
    for words in ("//app", "--facts", "--output graph", "--nosuch"):
        bench.compare(f"bzlq ask {words}", bench.run(f"bzlq ask {words}", "ws")[::2], ("", 2))
    bench.compare("bzlq ask, no workspace", bench.run("bzlq ask", "", b"//a\n")[::2], ("", 2))
    with started(bench, "bzlq ask", "ws") as run:
        for text, answer in (("", "//log:log"), ('filegroup(name = "log2")\n', "//log:log2"), ("1 // 0\n", "no")):
            append(bench, "ws/log/BUILD", text)
            run.stdin.write(b"//log:all\n//app:app\n")
            run.stdin.flush()
            lines = [line_of(run.stdout)]
            while lines[-1] != "//app:app":
                lines.append(line_of(run.stdout))
            bench.compare(f"bzlq ask, after {text!r}", (answer if answer in lines else "no"), answer)
        run.stdin.close()
        bench.compare("its end", run.wait(PATIENCE), 3)


def terminal(bench):
    """Questions on a terminal: a prompt, the tab key, an answer that is broken off, and the end."""
    bench.lay_out("ws", FILES)
    bench.run("bzlq //log", "ws")
    pid, screen = pty.fork()
    if not pid:
        os.chdir(f"{bench.room}/ws")
        os.execvpe("bzlq", ["bzlq", "ask"], {**bench.environment, "TERM": "dumb"})
    shown = []
    # (Python may miss a signal between its prompt and its wait for keys, so the letters before Ctrl-C are waited for)
    for keys, until in (("", "bzlq> "), ("//app:app_\t\n", "bzlq> "), ("//log:lo", "//log:lo"), ("\x03", "bzlq> "), ("//none\n", "bzlq> "), ("\x04", "")):
        os.write(screen, keys.encode())
        shown.append(screen_until(screen, until))
    os.close(screen)
    bench.compare("a prompt", shown[0][-6:], "bzlq> ")
    bench.compare("the tab key", shown[1].endswith("\r\n//app:app_more\r\nbzlq> "), True)
    bench.compare("no package", "Q6 NoSuchPackage: //none:none" in shown[4], True)
    bench.compare("the end of bzlq ask on a terminal", os.waitstatus_to_exitcode(os.waitpid(pid, 0)[1]), 0)


def watch(bench):
    """What came and what went, with faults that come and go, and an end by a signal."""
    bench.lay_out("ws", FILES)
    bench.run("bzlq //log", "ws")
    for number, status in ((signal.SIGINT, 130), (signal.SIGTERM, -signal.SIGTERM)):
        bench.lay_out("ws", FILES)
        with started(bench, "bzlq watch --output label_kind //log:*", "ws") as run:
            before = ["source file //log:BUILD", "filegroup rule //log:log", "source file //log:log.c"]
            bench.compare("the answer", [line_of(run.stdout) for _ in before], before)
            until(run.stderr, "what changes comes below")
            bench.compare("what is watched", until(run.stderr, f"bzlq: watching {bench.room}/ws by inotify"), True)
            append(bench, "ws/log/BUILD", 'filegroup(name = "x", srcs = glob(["*.h"]))\n')
            bench.compare("what came", line_of(run.stdout), "+ filegroup rule //log:x")
            append(bench, "ws/log/y.h", "")
            bench.compare("a file that came", line_of(run.stdout), "+ source file //log:y.h")
            append(bench, "ws/app/BUILD", "1 // 0\n")
            bench.compare("a fault that came", until(run.stderr, "app/BUILD:3:1: F42 DivZero: 1 // 0"), True)
            os.remove(f"{bench.room}/ws/log/y.h")
            bench.compare("what went", line_of(run.stdout), "- source file //log:y.h")
            shutil.rmtree(f"{bench.room}/ws/log")
            bench.compare("no answer at the moment", until(run.stderr, "bq: Q6 NoSuchPackage: //log:*"), True)
            append(bench, "ws/log/BUILD", 'filegroup(name = "log")\n')
            bench.compare("an answer again", sorted(line_of(run.stdout) for _ in range(2)), ["- filegroup rule //log:x", "- source file //log:log.c"])
            run.send_signal(number)
            bench.compare(f"its end by signal {number}", (run.wait(PATIENCE), run.stdout.read(), b"Traceback" in run.stderr.read()), (status, b"", False))
    for words, errors in (("", "bzlq: watch takes a query, and options of its answer\n"), ("--facts //log", "bzlq: watch takes a query, and options of its answer\n"),
                          ("'deps('", "bq: Q1 Syntax\n    deps(\n        ^ this parenthesis is never closed\n")):
        found = bench.run(f"bzlq watch {words}", "ws")
        bench.compare(f"bzlq watch {words}", (found[0], found[1][-len(errors):], found[2]), ("", errors, 2))


def guesses(bench):
    """What was made up for an answer that is watched: it is said once it comes, and once it has gone."""
    bench.lay_out("guessed", {"WORKSPACE": "", "a/BUILD": 'filegroup(name = "x")\n'})
    with started(bench, "bzlq watch //a:all", "guessed") as run:
        bench.compare("the answer", (line_of(run.stdout), until(run.stderr, "watching")), ("//a:x", True))
        append(bench, "guessed/a/BUILD", 'load("@r//:r.bzl", "lib")\nlib(name = "y")\n')
        bench.compare("what was made up", (line_of(run.stdout), until(run.stderr, "1 of 2 targets of this answer is an approximation: kind made up 1")), ("+ //a:y", True))
        append(bench, "guessed/b/BUILD", "1 // 0\n")
        bench.compare("a fault beside it", until(run.stderr, "b/BUILD:1:1: F42 DivZero: 1 // 0"), True)
        os.remove(f"{bench.room}/guessed/b/BUILD")
        bench.compare("a fault that goes", until(run.stderr, "bzlq: there are no faults any more"), True)
        with open(f"{bench.room}/guessed/a/BUILD", "w", encoding="utf-8") as file:
            file.write('filegroup(name = "x")\n')
        bench.compare("nothing is made up", (line_of(run.stdout), until(run.stderr, "bzlq: nothing of this answer is made up or left out any more")), ("- //a:y", True))
        run.send_signal(signal.SIGINT)
        bench.compare("its end", run.wait(PATIENCE), 130)


def looks(bench):
    """Changes where the system doesn't report them: the files are looked at."""
    bench.lay_out("looked", {"WORKSPACE": "", "a/BUILD": ""})
    with mock.patch.object(changes.sys, "platform", "another"):
        found = changes.Changes(f"{bench.room}/looked")
        bench.compare("how changes are noticed", found.how(), "by looking at its files again and again")
        writer = threading.Timer(0.2, append, (bench, "looked/a/BUILD", 'filegroup(name = "x")\n'))
        writer.start()
        found.wait()
        writer.join()
        bench.compare("a change that is noticed", os.path.getsize(f"{bench.room}/looked/a/BUILD") > 0, True)
        found.close()


# the folder, the beginning of a word, and what it may become
COMPLETED = (
    ("", "//", ["//app", "//app:", "//docs/", "//f", "//f:", "//log", "//log:", "//log/", "//tools", "//tools:", "//..."]),
    ("", "//lo", ["//log", "//log:", "//log/"]),
    ("", "//log/", ["//log/deep", "//log/deep:", "//log/..."]),
    ("", "//log:", ["//log:log", "//log:log.c", "//log:new", "//log:all"]),
    ("", "//app:app", ["//app:app", "//app:app_more"]),
    ("app", ":app_", [":app_more"]),
    ("", "app:ma", ["app:main.c"]),
    ("app", "../log:lo", ["../log:log", "../log:log.c"]),
    ("", "//none:", ["//none:all"]),
    ("", "app", []),
)


def completion(bench):
    """Labels, of the last answer and of the files; nothing is loaded for them."""
    bench.lay_out("ws", FILES)
    bench.run("bzlq --clean", "ws")
    bench.compare("before a first answer", bench.run("bzlq --complete //log:", "ws"), ("//log:log\n//log:all\n", "", 0))
    bench.run("bzlq //log", "ws")
    append(bench, "ws/log/BUILD", 'filegroup(name = "new")\n')
    for folder, word, wanted in COMPLETED:
        found = bench.run(f"BZLQ_BQ=/bin/false bzlq --complete '{word}'", f"ws/{folder}")
        bench.compare(f"{folder}$ bzlq --complete {word}", found, ("".join(f"{it}\n" for it in wanted), "", 0))
    bench.compare("no workspace", bench.run("bzlq --complete //"), ("", "", 2))
    script = f"source {ROOT}/docs/completions/bzlq.bash; COMP_LINE=$1; COMP_POINT=${{#1}}; shift; COMP_WORDS=(\"$@\"); COMP_CWORD=$(($# - 1)); _bzlq; echo \"${{COMPREPLY[@]}}\""
    for words, wanted in ((("bzlq //app:app_", "bzlq", "//app", ":", "app_"), "app_more"), (("bzlq 'deps(//app:app_", "bzlq", "'deps(//app:app_"), "deps(//app:app_more"),
                          (("bzlq 'set(//f //too", "bzlq", "'set(//f //too"), "set(//f //tools set(//f //tools:"), (("bzlq wa", "bzlq", "wa"), "watch")):
        ended = subprocess.run(["bash", "-c", script, "bash", *words], cwd=f"{bench.room}/ws", env=bench.environment, capture_output=True, check=False)
        bench.compare(f"bash, {words[0]}", ended.stdout.decode(), f"{wanted}\n")


def started(bench, command, folder):
    """A process whose outputs are read while it runs."""
    pipe = subprocess.PIPE
    return subprocess.Popen(["bash", "-c", f"exec {command}"], cwd=f"{bench.room}/{folder}", env=bench.environment, bufsize=0, stdin=pipe, stdout=pipe, stderr=pipe)


def append(bench, path, text):
    """Adds text to a file, which is made where it isn't there."""
    place = f"{bench.room}/{path}"
    os.makedirs(os.path.dirname(place), exist_ok=True)
    with open(place, "a", encoding="utf-8") as file:
        file.write(text)


def line_of(pipe):
    """The next line, if it comes in time."""
    text, last = b"", time.monotonic() + PATIENCE
    while not text.endswith(b"\n") and select.select([pipe], [], [], max(0, last - time.monotonic()))[0]:
        if not (part := pipe.read(1)):
            break
        text += part
    return text.decode(errors="surrogateescape").removesuffix("\n")


def until(pipe, wanted):
    """Reads lines until one has this text; gives whether there is one."""
    while line := line_of(pipe):
        if wanted in line:
            return True
    return False


def screen_until(screen, wanted):
    """What a terminal shows until it ends with this text."""
    text, last = "", time.monotonic() + PATIENCE
    while (not wanted or not text.endswith(wanted)) and select.select([screen], [], [], max(0, last - time.monotonic()))[0]:
        try:
            part = os.read(screen, 4096)
        except OSError:
            break
        text += part.decode(errors="replace")
    return text


def check(bench):
    """Tries all of it."""
    for part in (ask, terminal, watch, guesses, looks, completion):
        part(bench)
