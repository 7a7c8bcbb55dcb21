"""Tries bzlq and the scripts where something is odd: more files and modules than bq reads without --large, signals, devices that are full, caches that
others may write to, workspaces that are gone, and no home folder."""
import contextlib
import os
import re
import shutil
import signal
import subprocess
import time
from unittest import mock

from bench import ROOT
from bzlq.bq import LARGE, BqError, Workspace, facts
from bzlq.workspace import bundle

BUILD = 'filegroup(name = "x", srcs = glob(["*/*.txt"]))\n'
# directories of 1,000 files each, by links to one
LINKS = 66
# bundles at the limits without --large, and one past each
AT_LIMITS = (
    (b"=== a\n" * 65_536, b"=== a\n"),
    (b"=== a/BUILD.bazel\n" * 8192 + b"=== a/f.bzl\n" * 8191 + b"=== BUILD\n", b"=== a/BUILD\n"),
    (b"=== BUILD\n" + b'load(":f.bzl")\n' * 262_144, b'load(":f.bzl")\n'),
)


def many_files(bench):
    """More files than bq reads without --large, which bzlq then gives it; those that no package has are left out."""
    bench.lay_out("many", {"WORKSPACE": "", "BUILD": BUILD, "a/BUILD": 'filegroup(name = "a")\n'})
    bench.lay_out("thousand", {f"{n}.txt": "" for n in range(1000)})
    for n in range(LINKS):
        os.symlink("../thousand", f"{bench.room}/many/l{n}")
    bench.compare("many files", bench.run("bzlq //a", "many"), ("//a:a\n", "bzlq: reading the workspace\n", 0))
    found = bench.run("bzlq 'deps(//:x)'", "many")
    bench.compare("all of them", (found[0].count("\n"), found[1:]), (66_001, ("", 0)))
    bench.compare("their facts", bench.run("bzlq facts //a", "many")[0].count("\n"), 4)
    bench.run("touch l0/1000.txt", "many")
    bench.compare("a path to one that has come", bench.run("bzlq why //:x //:l1/1000.txt", "many"), ("BUILD:1: //:x -> //:l1/1000.txt (srcs)\n", "", 0))
    bench.compare("its bundle's path", bench.run("bzlq --bundle-path", "many")[1:], (f"bzlq: {LARGE}\n", 0))
    bench.compare("its bundle", bench.run("bzlq bundle > ../many.bundle; bzlq bundle . > ../own.bundle", "many")[1:], (f"bzlq: {LARGE}\nbundle: {LARGE}\n", 0))
    for words in ("--bundle many.bundle", "--bundle own.bundle", "--dir many"):
        bench.compare(f"bq {words}", bench.run(f"bq {words} //a"), ("", "bq: E4 Bundle\n", 2))
        bench.compare(f"bq {words} --large", bench.run(f"bq {words} --large //a"), ("//a:a\n", "", 0))
    bench.compare("bzlq unused --bundle", bench.run("bzlq unused --bundle own.bundle //a"), ("", "unused: E4 Bundle\n", 2))
    bench.compare("bzlq unused --bundle --large", bench.run("bzlq unused --bundle own.bundle --large //a"), ("a/BUILD:1: //a:a (filegroup rule)\n", "", 0))
    in_programs(bench)
    with mock.patch.object(bundle, "MOST_FILES", 66_000):
        try:
            bundle.write_bundle(bundle.merged([f"{bench.room}/many"]), None)
            said = ""
        except bundle.TooMany as error:
            said = f"{error}"
    bench.compare("more than the most", said, "66,069 files, and bq reads 66,000: name directories in .bazelignore (most are in l0 (1,001), l1 (1,001), l10 (1,001))")
    bench.run("rm -f BUILD", "many")
    bench.compare("those in no package", bench.run("bzlq //a", "many"), ("//a:a\n", "bzlq: reading the workspace\n", 0))
    bench.compare("the bundle without them", bench.run("bzlq --bundle-path", "many")[1:], ("", 0))


def in_programs(bench):
    """The same by bq.py: with an overlay it is found out, else it is said."""
    many = f"{bench.room}/many"
    with mock.patch.dict(os.environ, bench.environment):
        with Workspace(many, program=bench.program, overlay=True) as workspace:
            bench.compare("bq.py, many files", (workspace.query("//a"), workspace.warnings, list(workspace.facts("//a").targets)), (["//a:a"], [], ["//a:a"]))
        bench.compare("bq.py, facts of many files", list(facts(many, "//a", program=bench.program, overlay=True).targets), ["//a:a"])
    with Workspace(many, program=bench.program, large=True) as workspace:
        bench.compare("bq.py, large", workspace.query("//a"), ["//a:a"])
    bench.compare("bq.py, facts of a large one", list(facts(many, "//a", program=bench.program, large=True).targets), ["//a:a"])
    try:
        Workspace(many, program=bench.program).close()
        said = ""
    except BqError as error:
        said = f"{type(error).__name__}: {error}"
    bench.compare("bq.py, not large", said, "RunError: E4 Bundle")


def many_modules(bench):
    """The same of more modules; and what counts as a large bundle."""
    bench.lay_out("modules", {"WORKSPACE": "", "rules.schema": "rule filegroup\n"})
    bench.lay_out("packages", {f"p{n}/BUILD": 'filegroup(name = "x")\n' for n in range(1000)})
    for n in range(17):
        os.symlink("../packages", f"{bench.room}/modules/l{n}")
    bench.compare("many modules", bench.run("bzlq 'filter(p999, //...)'", "modules"), ("".join(f"//l{n}/p999:x\n" for n in sorted(range(17), key=str)), "", 0))
    bench.compare("bq over many modules", bench.run("bq --dir . //l0/p0:x", "modules"), ("", "bq: E7 TooManyModules\n", 2))
    bench.compare("bzlq --raw --large", bench.run("bzlq --raw --large --dir . //l0/p0:x", "modules"), ("//l0/p0:x\n", "", 0))
    bench.compare("questions over many modules", bench.run("echo '//l0/p0:x' | bzlq ask", "modules"), ("//l0/p0:x\n", "", 0))
    bench.compare("queries over many modules", bench.run("echo '//l0/p0:x' | bzlq queries", "modules"), ("=== 0 1 //l0/p0:x\n//l0/p0:x\n", "", 0))
    for text, more in AT_LIMITS:
        bench.compare(f"{len(text)} bytes, and more", (bundle.is_large(text), bundle.is_large(text + more)), (False, True))
    bench.lay_out("small", {"WORKSPACE": "", "a/BUILD": 'filegroup(name = "a")\n'})
    bench.compare("bzlq --large", bench.run("bzlq --large //a", "small"), ("//a:a\n", "bzlq: reading the workspace\n", 0))


SLOW = {"WORKSPACE": "", "a/BUILD": 'filegroup(name = "a")\n1 // 0\n'}


def places(bench):
    """Where the cache is: not below a relative XDG_CACHE_HOME, and in a folder for temporary files where there is no home folder."""
    bench.lay_out("ws", {"WORKSPACE": "", "a/BUILD": 'filegroup(name = "a")\n'})
    bench.lay_out("home", {"x": ""})
    bench.lay_out("temporary", {"x": ""})
    answer = ("//a:a\n", "bzlq: reading the workspace\n", 0)
    bench.compare("a relative XDG_CACHE_HOME", bench.run(f"HOME={bench.room}/home XDG_CACHE_HOME=rel bzlq //a", "ws"), answer)
    bench.compare("where that is then", (sorted(os.listdir(f"{bench.room}/home")), sorted(os.listdir(f"{bench.room}/ws"))), ([".cache", "x"], ["WORKSPACE", "a"]))
    own = f"{bench.room}/temporary/bzlq-{os.geteuid()}"
    said = f"bzlq: nothing can be kept in /proc/none/.cache/bzlq (No such file or directory): {own} has it\n"
    found = bench.run(f"HOME=/proc/none XDG_CACHE_HOME= TMPDIR={bench.room}/temporary bzlq //a", "ws")
    bench.compare("no home folder", found, (answer[0], said + answer[1], 0))
    bench.compare("where that is then", [len(it) for it in os.listdir(own)], [16])


def others(bench):
    """A cache that others may write to isn't used, and nothing is written through a link there."""
    bench.lay_out("ws", SLOW)
    bench.lay_out("open", {"x": ""})
    bench.environment = {**bench.environment, "XDG_CACHE_HOME": f"{bench.room}/open"}
    first = bench.run("bzlq //a:*", "ws")
    bench.compare("a cache of one's own", first[2], 3)
    folder, = (f"{bench.room}/open/bzlq/{it}" for it in os.listdir(f"{bench.room}/open/bzlq"))
    with open(f"{bench.room}/victim", "w", encoding="utf-8") as file:
        file.write("mine")
    os.symlink(f"{bench.room}/victim", f"{folder}/said.new")
    os.remove(f"{folder}/said")
    bench.compare("a link in the cache", bench.run("bzlq //a:*", "ws"), ("", "a/BUILD:2:1: F42 DivZero: 1 // 0\nbzlq: nothing matches\n", 3))
    with open(f"{bench.room}/victim", encoding="utf-8") as file:
        bench.compare("where it leads", file.read(), "mine")
    os.chmod(folder, 0o777)
    bench.compare("a cache that others may write to", bench.run("bzlq //a:*", "ws"),
                  ("", f"bzlq: {folder} isn't used: others may write to it (`chmod go-w`, or remove it)\n", 2))
    os.chmod(folder, 0o700)
    if os.geteuid() == 0:
        os.chown(folder, 65534, 65534)
        bench.compare("another user's cache", bench.run("bzlq //a:*", "ws"),
                      ("", f"bzlq: {folder} isn't used: it is of another user (XDG_CACHE_HOME can name another folder)\n", 2))
    os.rename(f"{bench.room}/open/bzlq", f"{bench.room}/open/other")
    os.symlink("other", f"{bench.room}/open/bzlq")
    bench.compare("a cache that is a link", bench.run("bzlq //a:*", "ws"),
                  ("", f"bzlq: {bench.room}/open/bzlq isn't used: it is a link or a file (XDG_CACHE_HOME can name another folder)\n", 2))
    bench.environment = {**bench.environment, "XDG_CACHE_HOME": f"{bench.room}/cache"}


def kept(bench):
    """An emptied bundle is made anew; what is kept of a workspace goes when the workspace has gone."""
    bench.lay_out("ws", {"WORKSPACE": "", "a/BUILD": 'filegroup(name = "a")\n'})
    bench.lay_out("gone", {"WORKSPACE": "", "BUILD": ""})
    path = bench.run("bzlq --bundle-path", "ws")[0].strip()
    with open(path, "w", encoding="utf-8"):
        pass
    bench.compare("an emptied bundle", bench.run("bzlq //a", "ws")[::2], ("//a:a\n", 0))
    folder = os.path.dirname(bench.run("bzlq --bundle-path", "gone")[0].strip())
    bench.compare("a workspace that is there", os.path.isdir(folder), True)
    bench.run("rm -r gone; touch ws/a/b.txt; cd ws; bzlq //a")
    bench.compare("what is kept of one that is gone", os.path.isdir(folder), False)


def signals(bench):
    """A signal ends a run at once; it leaves nothing behind, and no traceback."""
    bench.lay_out("slow", {**SLOW, "rules.bzl": "", "bq": "#!/bin/sh\necho x >> started\nexec sleep 30\n"})
    os.chmod(f"{bench.room}/slow/bq", 0o755)
    bench.run("git init -q; git add -A; git -c user.name=x -c user.email=x commit -qm x", "slow")
    cache = f"{bench.room}/cache/bzlq"
    for words, left in (("bzlq //a", "new"), ("bzlq affected HEAD", "affected-")):
        for number, status in ((signal.SIGINT, (130, -2)), (signal.SIGTERM, (-15,)), (signal.SIGKILL, (-9,))):
            before = {it for it, _, _ in os.walk(cache)}
            errors, ended = signalled(bench, words, number)
            rest = [it for it, _, _ in os.walk(cache) if it not in before and os.path.basename(it).startswith((left, "new-"))]
            bench.compare(f"{words.split('/')[-1]}, signal {number}", (ended in status, "Traceback" in errors, number != 9 and rest), (True, False, [] if number != 9 else False))
    bench.run("bzlq affected HEAD; bzlq //a", "slow")
    rest = [it for it, _, _ in os.walk(cache) if os.path.basename(it).startswith(("affected-", "new"))]
    bench.compare("rooms of runs that were killed, after the next runs", rest, [])


def signalled(bench, words, number):
    """What a run writes to standard error and how it ends, if it gets a signal while it waits for a program."""
    folder = f"{bench.room}/slow"
    with contextlib.suppress(FileNotFoundError):
        os.remove(f"{folder}/started")
    with open(f"{folder}/a/BUILD", "a", encoding="utf-8") as file:
        file.write("\n")
    with subprocess.Popen(["python3", shutil.which(words.split()[0], path=bench.environment["PATH"]), *words.split()[1:], "--program", f"{folder}/bq"], cwd=folder,
                          env=bench.environment, stdout=subprocess.DEVNULL, stderr=subprocess.PIPE) as run:
        while run.poll() is None and not os.path.exists(f"{folder}/started"):
            time.sleep(0.01)
        run.send_signal(number)
        return run.communicate()[1].decode(), run.returncode


def devices(bench):
    """What can't be written ends with 5."""
    bench.lay_out("ws", {"WORKSPACE": "", "a/BUILD": 'filegroup(name = "a", srcs = ["x.c"])\n'})
    full = "{}: standard output: No space left on device\n".format
    for name, words in (("bzlq", "bzlq //a"), ("bzlq", "bzlq --facts"), ("bzlq", "bzlq --output package //a"), ("why", "bzlq why //a //a:x.c"),
                        ("bundle", "bzlq bundle ."), ("hints", "echo x | bzlq hints")):
        found = bench.run(f"{words} > /dev/full", "ws")
        bench.compare(f"{words} > /dev/full", (found[1].replace("bzlq: reading the workspace\n", ""), found[2]), (full(name), 5))


def words(bench):
    """Other words of bzlq: the version, names of faults, a minus after a blank."""
    bench.lay_out("ws", {"WORKSPACE": "", "a/BUILD": 'filegroup(name = "a", srcs = ["x.c"])\n'})
    version = bench.run("bq --version")[0]
    bench.compare("bzlq --version", bench.run("bzlq --version"), (version, "", 0))
    explained = bench.run("bq --explain F74")[0]
    for word in ("f74", "DoubleTarget", "doubletarget"):
        bench.compare(f"bzlq --explain {word}", bench.run(f"bzlq --explain {word}"), (explained, "", 0))
    bench.compare("bzlq --explain none", bench.run("bzlq --explain none")[::2], ("", 2))
    bench.compare("a minus", bench.run("bzlq 'deps(//a) -//a:x.c'; bzlq 'deps(//a) -a:x.c'", "ws")[0], "//a:a\n" * 2)
    found = bench.run("bzlq 'somepath(//a, //a:x.c)'", "ws")
    bench.compare("somepath", (found[1].partition("\n")[2], found[2]), ("    somepath(//a, //a:x.c)\n    ^ somepath is left out: `bzlq why a b` has a shortest path, "
                  "and allpaths(a, b) all targets on the ways from a to b\n", 2))


def clones(bench):
    """A clone in which nothing was built: a tool unpacks the program of dist/, also where the clone can't be written to, or says why not.
    A program in the folder bin two levels above is none of the clone's: it may be another user's."""
    bench.lay_out("ws", {"WORKSPACE": "", "a/BUILD": 'filegroup(name = "a")\n'})
    bench.lay_out("within/clone", {"crates.txt": ""})
    clone = os.path.realpath(f"{bench.room}/within/clone")
    for name in ("tools", "bzlq", "dev", "dist"):
        shutil.copytree(f"{ROOT}/{name}", f"{bench.room}/within/clone/{name}")
    for path, text in (("dev/sources", "#!/bin/sh\necho '1 2 crates/bq/src/main.rt'\n"), ("dist/SOURCES", "1 2 crates/bq/src/main.rt\n")):
        with open(f"{bench.room}/within/clone/{path}", "w", encoding="utf-8") as file:
            file.write(text)
    bench.run("bzlq --clean", "ws")
    run = lambda: bench.run("unset BZLQ_BQ; XDG_CACHE_HOME=$PWD/../other python3 ../within/clone/tools/bzlq //a", "ws")  # noqa: E731
    bench.compare("a fresh clone", run(), ("//a:a\n", "bzlq: reading the workspace\n", 0))
    bench.compare("where the program is then", os.listdir(f"{bench.room}/within/clone/crates/bq/out/dist"), ["bq"])
    bench.run("rm -r within/clone/crates; touch within/clone/crates")
    bench.compare("a clone that can't be written to", run(), ("//a:a\n", "", 0))
    bench.run("echo '1 2 other.rt' > within/clone/dist/SOURCES")
    said = ("bzlq: no bq was built of these source files, and the program in dist/ is of others (crates/bq/src/main.rt differs): `./bq` builds one, which takes "
            f"the toolchain; or `mkdir -p out; xz -dc dist/bq-x86_64-linux.xz > out/bq; chmod +x out/bq` in {clone} unpacks that one, and BZLQ_BQ={clone}/out/bq names it\n")
    bench.compare("other source files", run(), ("", said, 2))
    bench.run("echo x >> within/clone/dist/bq-x86_64-linux.xz")
    bench.compare("another file in dist", run(), ("", "bzlq: dist/bq-x86_64-linux.xz isn't what dist/SHA256SUMS says (`git checkout dist` restores it)\n", 2))
    bench.run("rm -r within/clone/dist")
    bench.compare("no dist", run(), ("", "bzlq: there is no bq: the variable BZLQ_BQ can name it\n", 2))


# a BUILD file whose faults and prints have what moves a cursor, and turns the direction of a line
ODD = 'print("\x1b]0;t\x07\x7f\u202e")\nfilegroup(name = "a", srcs = ["x.c"], tags = ["\x1b[2J\x9b"])\nfail("\x1b[1A\x9b")\n'
# what may not come to a terminal
CONTROL = re.compile("[\x00-\x08\x0b\x0c\x0e-\x1f\x7f-\x9f\u202e]")


def terminals(bench):
    """A terminal gets control bytes as texts, whatever script writes them; a pipe gets them as they are."""
    name = "w\x1b[31m"
    bench.lay_out(name, {"WORKSPACE": "", "a/BUILD": ODD, "b/BUILD": 'filegroup(name = "b", srcs = glob(["*"]))\n', "b/y\x1b.txt": "", "CODEOWNERS": "* @x\x1b[1m\n",
                         "c/BUILD": 'load("m.bzl", "m")\nm(name = "x\x1b")\n', "c/m.bzl": "def m(name):\n    fail(name)\n"})
    bench.run("git init -q; git add -A; git -c user.name=x -c user.email=x commit -qm x; echo >> a/BUILD; echo x > b/z\x1b.txt; rm b/y*", name)
    words = (["//a:*"], ["--facts"], ["--output", "location", "//..."], ["graph", "//..."], ["unused"], ["cycles"], ["users", "m"], ["lint", "a/BUILD", "c/BUILD"], ["bundle"],
             ["affected", "HEAD"], ["affected", "--owners", "HEAD"], ["affected", "--json", "HEAD"], ["diff", "HEAD", "//..."], ["stubs", ".", "../overlay"], ["bundle", "."],
             ["visible"], ["shared"], ["closures"], ["owner", "b/z\x1b.txt"], ["loads", "c/m\x1b.bzl"], ["why", "//b\x1b", "//a"], ["//a\x1b"], ["--output", "\x1b"], ["lint", "\x1b"])
    for it in words:
        found, _ = bench.on_terminal(it, name)
        text = found.decode("utf-8", "replace")
        bench.compare(f"control bytes of {' '.join(map(repr, it))} on a terminal", (CONTROL.findall(text), "Traceback" in text or "an error of" in text), ([], False))
    found, _ = bench.on_terminal(["--queries", "-"], name, b"//a:*\n\x04")
    text = found.decode("utf-8", "replace")
    bench.compare("control bytes of a session on a terminal", (CONTROL.findall(text.replace("^D\b\b", "")), "\\x1b[1A" in text or "\\x1b]0" in text), ([], True))
    found, _ = bench.on_terminal(["//a:*"], name)
    bench.compare("what stands there instead", [it in found.decode() for it in ("\\x1b[1A\\x9b", "\\x1b]0;t\\x07\\x7f\\u202e")], [True, True])
    bench.compare("control bytes in a pipe", "\x1b[1A" in bench.run("bzlq //a:*", name)[1], True)
    said = subprocess.run(["bash", "-c", "bq --dir . //a:* 2>&1 | bzlq hints . | cat"], cwd=f"{bench.room}/{name}", env=bench.environment, capture_output=True, check=False)
    bench.compare("hints in a pipe", b"\x1b[1A" in said.stdout, True)


def folders(bench):
    """A label never leads out of the workspace, a name is never an option, and no folder of CDPATH is taken for the one that is meant."""
    secret = 'x = "secret"\n'
    bench.lay_out("ws", {"WORKSPACE": "", "a/BUILD": f'load("../../secret.bzl", "x")\nload("//../:secret.bzl", y = "x")\nload("{bench.room}/secret.bzl", z = "x")\nfilegroup(name = "a")\n',
                         "-x/BUILD": 'filegroup(name = "x", srcs = ["-y.c"])\nfilegroup(name = "x")\n', "--all/BUILD": "x\n", 'q"/BUILD': "x\n", "-x/-y.c": ""})
    bench.lay_out("secret", {"BUILD": 'filegroup(name = "$(secret)")\n'})
    with open(f"{bench.room}/secret.bzl", "w", encoding="utf-8") as file:
        file.write(secret)
    opened = bench.run("strace -f -e trace=openat,open -o opened bzlq lint a/BUILD; grep secret opened", "ws")[0] if shutil.which("strace") else ""
    found = bench.run("bzlq lint a/BUILD", "ws")
    bench.compare("loads that lead out", (found[0].count("F30") + found[0].count("F10"), "secret.bzl\"" in opened, found[2]), (1, False, 1))
    bench.compare("labels that lead out, for a shell", [bench.run(f"bzlq --complete '{it}'", "ws")[0] for it in ("//../secret:", "//../", "//a/../../secret:")], [""] * 3)
    bench.compare("names like options", bench.run("bzlq lint -- -x/BUILD --all/BUILD | wc -l; bzlq owner -- -x/-y.c; bzlq lint -x/BUILD", "ws")[0], "2\n")
    bench.run("rm -r ./--all ./-x/BUILD q*; echo 'filegroup(name = \"x\", srcs = [\"-y.c\"])' > ./-x/BUILD", "ws")
    bench.compare("owner of a name like an option", bench.run("bzlq owner -- -x/-y.c", "ws")[0], "//-x:x\n")
    bench.lay_out("shell", {"WORKSPACE": "", "a/BUILD": 'filegroup(name = "x$(touch pwned)")\nfilegroup(name = "y`z`")\nfilegroup(name = "z;w")\nfilegroup(name = "plain")\n'})
    bench.run("bzlq //...", "shell")
    bench.compare("what a shell is given for a label", bench.run("bzlq --complete //a:", "shell")[0], "//a:plain\n//a:all\n")
    bench.lay_out("elsewhere/copy/dev", {"x": ""})
    bench.lay_out("copy/dev", {"x": ""})
    for it in ("bq", "dev/sources", "crates.txt"):
        shutil.copy(f"{ROOT}/{it}", f"{bench.room}/copy/{it}")
    lines = [line for path in (f"{ROOT}/bq", f"{ROOT}/dev/sources", f"{ROOT}/.ci/run") for line in open(path, encoding="utf-8") if re.search(r"(^|[^\w])cd ", line)]
    bench.compare("each cd of a script", [it for it in lines if "CDPATH='' cd -- " not in it], [])
    found = bench.run("export CDPATH=$PWD/elsewhere; copy/dev/sources | tail -n 1; copy/bq --help | head -n 1")
    bench.compare("scripts that are called by a relative path", found, ("bq\nUsage: ./bq [OPTIONS] QUERY\n", "", 0))


def check(bench):
    """Tries all of it."""
    for part in (many_files, many_modules, places, others, kept, signals, devices, words, clones, terminals, folders):
        part(bench)
