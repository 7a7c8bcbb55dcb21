"""Tries bzlq affected: changes of small workspaces in repositories of git, made at random and by hand.

Beside each list stands what follows from it by a way of its own (`followed`): both revisions are checked out, bundled by bzlq stubs and
bzlq bundle as a user would, and the lines of `bq --facts` and the bytes of files are compared as they are; what depends on a changed
target says `rdeps` of bq. Nothing that is found so may be missing, and where a workspace needs no overlay nothing more may be listed.
"""
import collections
import json
import os
import random
import subprocess

from bench import encoded

GIT = ("git", "-c", "user.name=x", "-c", "user.email=x", "-c", "init.defaultBranch=main", "-c", "core.hooksPath=/dev/null", "-c", "commit.gpgsign=false", "-c", "gc.auto=0",
       "-c", "protocol.file.allow=always")
SCHEMA = ("rule lib\nattr srcs label_list\nattr hdrs label_list\nattr deps label_list\nattr size string\n\nrule lib_test\nattr srcs label_list\nattr deps label_list\n"
          "attr size string\n\nrule genrule\nattr srcs label_list\nattr outs output_list mandatory\nattr cmd string\n")
MACRO = '''def service(name, deps = [], size = "small"):
    native.lib(
        name = name,
        srcs = native.glob(["*.c"], exclude = ["*_test.c"]),
        deps = deps,
    )
    native.lib_test(
        name = name + "_test",
        srcs = native.glob(["*_test.c"]),
        deps = [":" + name],
        size = size,
    )
'''


# of histories at random: the seed, whether another repository is needed, and how many changes there are
SEEDS = ((1, False, 12), (2, False, 12), (3, True, 5))


class Project:
    """A workspace in a repository of git, in a folder of the bench's room."""

    def __init__(self, bench, name, files):
        self.bench, self.name, self.folder, self.last = bench, name, f"{bench.room}/{name}", None
        bench.lay_out(name, files)
        self.git("init", "-q")
        self.commit()

    def git(self, *words):
        """Runs git."""
        return subprocess.run([*GIT, *words], cwd=self.folder, env=self.bench.environment, capture_output=True, check=True).stdout

    def commit(self):
        """Commits all that is there."""
        self.git("add", "--all")
        self.git("commit", "-q", "--allow-empty", "-m", "step")

    def write(self, path, text):
        """Writes a file."""
        place = os.path.join(self.folder, path)
        os.makedirs(os.path.dirname(place), exist_ok=True)
        if os.path.lexists(place):
            os.remove(place)
        with open(place, "wb") as file:
            file.write(text.encode("utf-8", "surrogateescape"))

    def read(self, path):
        """The text of a file."""
        with open(os.path.join(self.folder, path), encoding="utf-8") as file:
            return file.read()

    def remove(self, path):
        """Removes a file."""
        os.remove(os.path.join(self.folder, path))

    def link(self, path, to):
        """Puts a link in the place of a file."""
        if os.path.lexists(f"{self.folder}/{path}"):
            os.remove(f"{self.folder}/{path}")
        os.symlink(to, f"{self.folder}/{path}")

    def affected(self, *words):
        """What the script writes to each output, and its status."""
        return self.bench.called(" ".join(("affected", *words)), self.name)

    def checkout(self, revision, to):
        """The files of a revision in a folder."""
        subprocess.run(["rm", "-rf", to], check=True)
        os.makedirs(to)
        made = self.git("archive", revision)
        subprocess.run(["tar", "-x", "-C", to], input=made, check=True)
        return to


def told(bench, tree, room, overlays):
    """The objects that `bq --facts` writes for a tree, by label; the bundle; and whether all is there."""
    is_whole = os.path.exists(f"{tree}/rules.schema")
    if not is_whole and not overlays:
        said = bench.run(f"bzlq stubs '{tree}' '{room}/overlay'")[1]
        is_whole, overlays = not said, [f"{room}/overlay"]
    with open(f"{room}/bundle", "wb") as file:
        file.write(encoded(bench.run("bzlq bundle " + " ".join(f"'{it}'" for it in [tree, *overlays]))[0]))
    output, errors, status = bench.run(f"\"$BZLQ_BQ\" --facts --bundle '{room}/bundle'")
    objects = [json.loads(line) for line in output.splitlines()]
    return {it["target"]: it for it in objects if "target" in it}, f"{room}/bundle", is_whole and status == 0


def bytes_at(tree, path):
    """What a checked-out file is: its bytes, and whether it may be run."""
    place = os.path.realpath(f"{tree}/{path}")
    if os.path.isdir(place):
        return sorted((name, bytes_at(tree, f"{path}/{name}")) for name in os.listdir(place))
    if not os.path.exists(place) or not place.startswith(os.path.realpath(tree) + "/"):
        return None
    with open(place, "rb") as file:
        return file.read(), os.access(place, os.X_OK)


Side = collections.namedtuple("Side", "key room tree targets bundle is_whole")


def side(project, revision, overlays, beside=None):
    """A revision that is checked out, and what `told` says of it. (The head of a change is kept: it is mostly the base of the next.)"""
    key = project.git("rev-parse", revision), *overlays
    if project.last and project.last.key == key and not beside:
        return project.last
    room = f"{project.bench.room}/followed-{2 if beside and beside.room.endswith('1') else 1}"
    tree = project.checkout(revision, f"{room}/tree")
    return Side(key, room, tree, *told(project.bench, tree, room, list(overlays)))


def followed(project, base, head, overlays=()):
    """What has to be listed, whether all is there, and the labels of all targets."""
    bench = project.bench
    before = side(project, base, overlays)
    after = project.last = side(project, head, overlays, before)
    changed, old, new = set(), before.targets, after.targets
    for label, it in new.items():
        if label not in old:
            changed.add(label)
        elif it["kind"] == "source file" == old[label]["kind"]:
            changed |= {label} if bytes_at(before.tree, it["file"]) != bytes_at(after.tree, it["file"]) else set()
        elif any(it.get(key) != old[label].get(key) for key in ("kind", "attributes", "deps")):
            changed.add(label)
    changed |= {label for label, it in old.items() if label in new and any(dep not in new for dep in it.get("deps", ()))}
    listed = dependents(bench, after.bundle, sorted({label.partition("//")[0] for label in new}), sorted(changed)) if changed else []
    return listed, before.is_whole and after.is_whole, {*new}


def dependents(bench, bundle, repositories, changed):
    """What depends on these, by bq."""
    everywhere, queries, found = " + ".join(f"{it}//...:*" for it in repositories), "", set()
    for first in range(0, len(changed), 1000):
        words = " ".join(f'"{label}"' for label in changed[first:first + 1000])
        queries += f"rdeps({everywhere}, set({words}))\n"
    for line in bench.run(f"\"$BZLQ_BQ\" --bundle '{bundle}' --queries -", given=queries.encode())[0].splitlines():
        found |= {line} if not line.startswith("=== ") else set()
    return sorted(found)


def compared(project, what, exactly, words=(), base="HEAD~1", head="HEAD", overlays=()):
    """Compares the list of a change with what follows. Gives the list, what is said beside it, and the labels of all targets."""
    wanted, is_whole, of = followed(project, base, head, overlays)
    output, errors, status = project.affected("--base", base, "--head", head, *words)
    found = output.splitlines()
    missing = sorted(set(wanted) - set(found))
    project.bench.compare(f"{what}: missing", missing, [])
    if exactly:
        project.bench.compare(f"{what}: too much", sorted(set(found) - set(wanted)), [])
    project.bench.compare(f"{what}: status", (status, found == sorted(found)), (0 if is_whole else 3, True))
    return found, errors, of


class Maker:
    """Makes a workspace at random, and changes of it."""

    def __init__(self, seed, is_bare):
        self.random, self.is_bare, self.count = random.Random(seed), is_bare, 0

    def files(self):
        """The files of a project."""
        files = {"tools/BUILD": "", "tools/defs.bzl": MACRO, "README": "", **({} if self.is_bare else {"rules.schema": SCHEMA})}
        files["WORKSPACE"] = ""
        for at in range(6):
            files |= self.package(f"p{at}", [f"//p{n}:p{n}" for n in range(at)])
        return files

    def package(self, name, below):
        """The files of a package."""
        rule = self.random.choice(("service", "lib"))
        deps = self.random.sample(below, min(len(below), self.random.randint(0, 2)))
        head = 'load("//tools:defs.bzl", "service")\n' + ('load("@rules//:lib.bzl", "lib", "lib_test")\n' if self.is_bare else "")
        text = f'{head}\n{rule}(name = "{name}", deps = {json.dumps(deps)})\n'
        text += f'genrule(name = "{name}_gen", srcs = ["in file.txt"], outs = ["{name}.out"], cmd = "x")\n'
        text += f'lib_test(name = "{name}_more", srcs = glob(["more/*"]), deps = [":{name}", ":{name}.out"])\n'
        return {f"{name}/BUILD": text, f"{name}/{name}.c": "", f"{name}/x_test.c": "", f"{name}/in file.txt": "", f"{name}/more/a.h": "", f"{name}/sub/y.c": ""}

    def change(self, project):
        """Changes something; gives what it was."""
        made = self.random
        at = f"p{made.randrange(6)}"
        self.count += 1
        new = f"{self.count}"
        kind = made.choice(("source", "source", "new file", "file that goes", "comment", "comment of a macro", "attribute", "macro", "target", "target that goes",
                            "mode", "link", "file in no target", "two", "name", "package"))
        build = f"{at}/BUILD"
        if not os.path.exists(f"{project.folder}/{build}"):
            kind = "package"
        match kind:
            case "source":
                project.write(f"{at}/{made.choice((at + '.c', 'x_test.c', 'in file.txt', 'more/a.h'))}", new)
            case "new file":
                project.write(f"{at}/{made.choice(('n.c', 'n_test.c', 'more/n.h', 'sub/n.c'))}", new)
            case "file that goes":
                found = [it for it in project.git("ls-files", "-z", at).decode().split("\0") if it and not it.endswith("BUILD") and os.path.exists(f"{project.folder}/{it}")]
                project.remove(made.choice(found)) if found else None
            case "comment":
                project.write(build, f"# {new}\n" + project.read(build))
            case "comment of a macro":
                project.write("tools/defs.bzl", f"# {new}\n\n" + project.read("tools/defs.bzl"))
            case "attribute":
                project.write(build, project.read(build).replace('cmd = "', f'cmd = "{new} ', 1))
            case "macro":
                project.write("tools/defs.bzl", project.read("tools/defs.bzl").replace("size = size", f'size = "{new}" if name == "{at}" else size'))
            case "target":
                project.write(build, project.read(build) + f'\nlib(name = "t{new}", deps = [":{at}"])\n')
            case "target that goes":
                lines = project.read(build).splitlines(True)
                project.write(build, "".join(it for it in lines if not it.startswith("lib_test(")))
            case "mode":
                os.chmod(f"{project.folder}/{build}", 0o755)
                place = f"{project.folder}/{at}/in file.txt"
                os.chmod(place, 0o755) if os.path.isfile(place) else None
            case "link":
                project.link(f"{at}/more/l.h", made.choice(("a.h", "../../README", "../sub", "none", "/etc/passwd")))
            case "file in no target":
                project.write("README", new)
            case "two":
                return f"{self.change(project)} and {self.change(project)}"
            case "name":
                project.write(build, project.read(build).replace(f'_more"', f'_more{new}"', 1))
            case "package":
                for path, text in self.package(at, []).items():
                    project.write(path, text)
        return kind


def at_random(bench):
    """Histories of a workspace that is read as it is, and of one with another repository."""
    for seed, is_bare, steps in SEEDS:
        made = Maker(seed, is_bare)
        project = Project(bench, f"history{seed}", made.files())
        for step in range(steps):
            what = made.change(project)
            project.commit()
            compared(project, f"history {seed}, step {step}, {what}", not is_bare)
        compared(project, f"history {seed}, all of it", not is_bare, base="HEAD~5")


def by_hand(bench):
    """The words, and what is written to both outputs."""
    project = Project(bench, "project", {
        "WORKSPACE": "", "rules.schema": SCHEMA, "tools/BUILD": "", "tools/defs.bzl": MACRO, "docs/a b.md": "", ".gitignore": "out\n",
        "lib/BUILD": 'load("//tools:defs.bzl", "service")\nservice("lib")\n', "lib/lib.c": "", "lib/lib_test.c": "", "lib/BUILD.md": "",
        "app/BUILD": 'load("//tools:defs.bzl", "service")\nservice("app", deps = ["//lib"])\nlib(name = "other", deps = ["@r//:x"])\n', "app/main.c": "", "app/a_test.c": "",
        "external/r/BUILD": 'lib(name = "x")\n',
    })
    tests = ["--kind", "'_test rule'"]
    run, told = project.affected, "affected: {} changed target{}, {} deleted, {} affected\n".format

    def check(what, words, output, errors, status=0):
        bench.compare(f"affected, {what}", run(*words), (output, errors, status))

    check("nothing", ["--base", "HEAD"], "", told(0, "s", 0, 0))
    check("no origin", [], "", "affected: there is no origin/HEAD to compare with: name a revision, as `affected HEAD`\n", 2)
    check("a revision that isn't there", ["--base", "none"], "", "affected: there is no revision none\n", 2)
    check("a folder that isn't there", ["--base", "HEAD", "none"], "", "affected: there is no directory none\n", 2)
    check("a word that is neither", ["none"], "", "affected: there is no revision none\n", 2)
    check("too many words", ["HEAD", "HEAD", "HEAD"], "", "affected: the words are TREE, and at most two revisions, BASE and HEAD\n", 2)
    check("two words", ["HEAD", "HEAD", "."], "", told(0, "s", 0, 0))
    check("an overlay that isn't there", ["--base", "HEAD", "--overlay", "none"], "", "affected: there is no directory none\n", 2)
    check("a wrong pattern", ["--kind", "'['"], "", "affected: '[' is no regular expression: unterminated character set at position 0\n", 2)
    check("no BUILD file", ["--base", "HEAD", "docs"], "", "affected: there is no BUILD file in docs\n", 2)
    project.write("lib/lib.c", "int x;\n")
    project.write("docs/a b.md", "x")
    project.write("docs/\udcff", "x")
    project.write("out", "x")
    check("the work tree", ["--base", "HEAD", *tests], "//app:app_test\n//lib:lib_test\n",
          told(1, "", 0, 2) + "affected: in no target: docs/a b.md\naffected: in no target: docs/\udcff\n")
    check("the reasons", ["--base", "HEAD", "--kind", "^lib_test", "--why"], "//app:app_test\n  app/BUILD:2: //app:app_test -> //app:app (deps)\n"
          "  app/BUILD:2: //app:app -> //lib:lib (deps)\n  lib/BUILD:2: //lib:lib -> //lib:lib.c (srcs)\n  //lib:lib.c: contents\n"
          "//lib:lib_test\n  lib/BUILD:2: //lib:lib_test -> //lib:lib (deps)\n  lib/BUILD:2: //lib:lib -> //lib:lib.c (srcs)\n  //lib:lib.c: contents\n",
          told(1, "", 0, 2) + "affected: in no target: docs/a b.md\naffected: in no target: docs/\udcff\n")
    bench.compare("affected, the repository stays as it was", project.git("status", "--short", "-z"), b" M docs/a b.md\0 M lib/lib.c\0?? docs/\xff\0")
    project.git("update-ref", "refs/remotes/origin/main", "HEAD")
    project.git("symbolic-ref", "refs/remotes/origin/HEAD", "refs/remotes/origin/main")
    project.commit()
    check("from what is everyone's", [*tests, "--json"],
          '{"target":"//app:app_test","distance":3,"because":{"target":"//lib:lib.c","change":"contents"}}\n'
          '{"target":"//lib:lib_test","distance":2,"because":{"target":"//lib:lib.c","change":"contents"}}\n',
          told(1, "", 0, 2) + "affected: in no target: docs/a b.md\naffected: in no target: docs/\udcff\n")
    check("two revisions", ["--base", "HEAD~1", "--head", "HEAD~1"], "", told(0, "s", 0, 0))
    project.git("branch", "old")
    project.git("symbolic-ref", "-d", "refs/remotes/origin/HEAD")
    check("no origin, and branches", [], "", "affected: there is no origin/HEAD to compare with: name a revision, as `affected HEAD` "
          "(main, old, origin/main are there)\n", 2)
    project.remove("app/BUILD")
    gone = "".join(f'{{"deleted":"//app:{name}","kind":"{kind}"}}\n' for name, kind in (("app", "lib rule"), ("app_test", "lib_test rule"), ("other", "lib rule")))
    check("deleted targets", ["HEAD", "--kind", "lib", "--json"], gone, told(0, "s", 6, 0) + "affected: deleted: //app:app\naffected: deleted: //app:app_test\n"
          "affected: deleted: //app:other\n")
    project.git("checkout", "-q", "app/BUILD")
    one_by_one(bench, project, check)


def one_by_one(bench, project, check):
    """Changes of what stands around targets."""
    told = "affected: {} changed target{}, {} deleted, {} affected\n".format
    project.write("tools/defs.bzl", "# a comment\n" + MACRO)
    check("a comment of a macro", ["--base", "HEAD"], "", told(0, "s", 0, 0))
    project.write("tools/defs.bzl", MACRO.replace("size = size", 'size = "large" if name == "app" else size'))
    check("a macro", ["--base", "HEAD", "--json"], '{"target":"//app:app_test","distance":0,"because":{"target":"//app:app_test","change":"attribute size"}}\n',
          told(1, "", 0, 1))
    project.write("tools/defs.bzl", MACRO)
    project.write("WORKSPACE", "x = 1\n")
    check("another repository", ["--base", "HEAD"], "//app:other\n", told(1, "", 0, 1) +
          "affected: WORKSPACE: what depends on another repository counts as changed (1 target), and no other target\n")
    project.write("WORKSPACE", "")
    project.write("lib/BUILD", 'load("//tools:defs.bzl", "service")\npackage(features = ["x"])\nservice("lib")\n')
    check("a package", ["--base", "HEAD", "--kind", "'lib_test rule'"], "//app:app_test\n//lib:lib_test\n", told(3, "s", 0, 2))
    project.write("lib/BUILD", 'load("//tools:defs.bzl", "service")\nservice("lib")\n1 // 0\n')
    fault = "affected: targets may be missing{}: head: app/BUILD:2: F79 DanglingLabel //lib:lib\naffected: targets may be missing{}: head: lib/BUILD:3: F42 DivZero\n".format
    check("a fault", ["--base", "HEAD", "--kind", "lib_test"], "//app:app_test\n", told(1, "", 5, 1) + fault("", ""), 3)
    check("all on a fault", ["--base", "HEAD", "--kind", "lib_test", "--all-on-fault"], "//app:app_test\n//lib:lib_test\n",
          told(1, "", 5, 2).replace("affected\n", "listed\n") + fault(", so all are listed", ", so all are listed"))
    project.write("lib/BUILD", "")
    check("a label that names no target", ["--base", "HEAD", "--kind", "lib_test"], "//app:app_test\n", told(2, "s", 4, 1) + fault("", "").splitlines(True)[0], 3)
    check("such a label, allowed", ["--base", "HEAD", "--kind", "lib_test", "--allow-dangling"], "//app:app_test\n", told(2, "s", 4, 1))


LOSSY = {
    "WORKSPACE": "", "defs.bzl": 'load("@r//:r.bzl", "x_test")\ndef made(name, env = {}):\n    x_test(name = name, env = env)\n',
    "other.bzl": 'load("@r//:r.bzl", "x_test")\ndef plain(name, size = "small"):\n    x_test(name = name, size = size)\n', "BUILD": 'config_setting(name = "a")\nconfig_setting(name = "b")\n',
    "a/BUILD": 'load("//:defs.bzl", "made")\nload("@r//:r.bzl", "x_test")\nENV = {"A": "1"}\nmade("one", env = ENV)\nmade(name = "two", env = {"B": "2"})\n'
               'x_test(name = "three", size = select({"//:a": "small", "//conditions:default": "large"}))\nx_test(name = "four", srcs = ["x.c"])\n',
    "b/BUILD": 'load("//:other.bzl", "plain")\nplain("five")\nplain("six")\n',
    "c/BUILD": 'load("//:rules.bzl", "own")\nown(name = "seven")\n',
    "rules.bzl": 'def _impl(ctx):\n    return [DefaultInfo(files = depset(ctx.files.srcs))]\nown = rule(implementation = _impl, attrs = {"srcs": attr.label_list()})\n',
    "d/BUILD": 'load("@r//:r.bzl", "x_test")\nx_test(name = "eight")\n',
    "e/BUILD": 'load("@r//:r.bzl", "flags", "x_test")\nx_test(name = "nine", copts = flags("a"))\nx_test("ten", "small")\nx_test(name = "eleven", n = 1)\n',
    "f/BUILD": 'load("@r//:r.bzl", "x_test")\nconfig_setting(name = "c", values = {"a": "1"})\nOPTS = select({":c": ["-a"], "//conditions:default": []})\n'
               'x_test(name = "twelve", copts = OPTS)\nx_test(name = "thirteen", size = "small")\n',
    "opts.bzl": 'OPTS = select({"//f:c": ["-b"], "//conditions:default": []})\nSIZE = "small"\n',
    "g/BUILD": 'load("@r//:r.bzl", "x_test")\nload("//:opts.bzl", "OPTS")\nx_test(name = "fourteen", copts = OPTS)\nx_test(name = "fifteen")\n',
    "pack.bzl": 'def pack(features):\n    native.package(features = [features])\n', "h/BUILD": 'load("//:pack.bzl", "pack")\npack("a")\nfilegroup(name = "sixteen")\n',
}
# what changes what an overlay leaves out: the file, the texts, and what is listed
HIDDEN = (
    ("a/BUILD", '{"A": "1"}', '{"A": "2"}', "//a:one"),
    ("a/BUILD", '"B": "2"', '"B": "3"', "//a:two"),
    ("a/BUILD", '"//:a"', '"//:b"', "//a:three"),
    ("a/BUILD", '["x.c"]', '[\n  "x.c",  # a comment\n]', ""),
    ("a/BUILD", 'ENV = {', '# a comment\nENV = {', ""),
    ("b/BUILD", 'plain("six")', 'plain("six", size = "small")', ""),
    ("b/BUILD", 'plain("six")', 'plain("six", size = "large")', "//b:six"),
    ("other.bzl", "size = size", 'size = "large" if name == "five" else size', "//b:five"),
    ("defs.bzl", "env = env", 'env = dict(env, C = "3")', "//a:four //a:one //a:three //a:two"),
    ("defs.bzl", "def made", "# a comment\ndef made", ""),
    ("rules.bzl", "ctx.files.srcs", "[]", "//c:seven"),
    ("e/BUILD", 'flags("a")', 'flags("b")', "//e:nine"),
    ("e/BUILD", '"ten", "small"', '"ten", "large"', "//e:ten"),
    ("e/BUILD", "n = 1", "n = 2", "//e:eleven"),
    ("h/BUILD", 'pack("a")', 'pack("b")', "//h:sixteen"),
    ("pack.bzl", "[features]", '[features, "c"]', "//h:sixteen"),
    ("pack.bzl", "def pack", "# a comment\ndef pack", ""),
    ("f/BUILD", '"1"', '"2"', "//f:c //f:twelve //g:fourteen"),
    ("f/BUILD", 'name = "c"', 'name = "d"', "//f:d //f:twelve //g:fourteen"),
)


def overlays(bench):
    """Changes of what an overlay leaves out, and a macro that it can't have."""
    project = Project(bench, "lossy", LOSSY)
    for path, before, after, wanted in HIDDEN:
        project.write(path, LOSSY[path].replace(before, after))
        found = project.affected("--base", "HEAD", "--kind", "rule")
        bench.compare(f"hidden, {path}: {after}", (found[0].split(), found[2]), (wanted.split(), 0))
        project.write(path, LOSSY[path])
    project.write("other.bzl", LOSSY["other.bzl"].replace('"small"):', '"small"):\n    f = lambda: 0'))
    output, errors, status = project.affected("--base", "HEAD", "--kind", "rule")
    bench.compare("a macro without targets", (output, "targets may be missing: head: 2 calls of plain (other.bzl:2" in errors, status), ("", True, 3))
    found = project.affected("--base", "HEAD", "--kind", "rule", "--all-on-fault")
    bench.compare("all, for a macro without targets", (found[0].split(), found[2]),
                  ("//:a //:b //a:four //a:one //a:three //a:two //b:five //b:six //c:seven //d:eight //e:eleven //e:nine //e:ten "
                   "//f:c //f:thirteen //f:twelve //g:fifteen //g:fourteen //h:sixteen".split(), 0))


def modules(bench):
    """A repository in the repository, a workspace below the top, and one that comes."""
    Project(bench, "inner", {"x.c": ""})
    project = Project(bench, "outer", {"README": "", "ws/BUILD": 'filegroup(name = "a", srcs = ["inner/x.c"])\nfilegroup(name = "b")\n', "ws/rules.schema": "rule filegroup\nattr srcs label_list\n"})
    project.git("submodule", "--quiet", "add", f"{bench.room}/inner", "ws/inner")
    project.commit()
    subprocess.run([*GIT, "commit", "-q", "--allow-empty", "-m", "x"], cwd=f"{bench.room}/outer/ws/inner", check=True)
    found = project.affected("--base", "HEAD", "ws")
    module = "affected: inner is a repository of its own: what is in it isn't read, and only its commit is compared\n"
    bench.compare("a repository in the repository", found, ("//:a\n//:inner/x.c\n", "affected: 1 changed target, 0 deleted, 2 affected\n" + module, 0))
    found = project.affected("--base", "HEAD~1", "--head", "HEAD", "ws")
    bench.compare("a repository that comes", found[::2], ("//:a\n//:inner/x.c\n", 0))
    project.write("ws/BUILD", 'filegroup(name = "a", srcs = glob(["inner/*"]))\nfilegroup(name = "b")\n')
    project.commit()
    subprocess.run([*GIT, "commit", "-q", "--allow-empty", "-m", "x"], cwd=f"{bench.room}/outer/ws/inner", check=True)
    found = project.affected("--base", "HEAD", "ws")
    lacking = "affected: in no target: inner\naffected: targets may be missing: inner: what is in a repository of its own isn't read\n"
    bench.compare("a repository in the repository, under a glob", found, ("", "affected: 0 changed targets, 0 deleted, 0 affected\n" + module + lacking, 3))
    project.write("ws/BUILD", 'filegroup(name = "a", srcs = ["inner/x.c"])\nfilegroup(name = "b")\n')
    project.commit()
    project.git("mv", "ws", "other")
    found = project.affected("--base", "HEAD", "other")
    bench.compare("a workspace that comes", found[::2], ("//:BUILD\n//:a\n//:b\n//:inner/x.c\n", 0))


def check(bench):
    """Tries all of it."""
    by_hand(bench)
    overlays(bench)
    modules(bench)
    at_random(bench)
