"""The words of bzlq beside a query: takes the words of a call, does what the first one says, gives the status."""
import importlib
import os
import shutil
import subprocess
import sys

from bzlq.bq import LARGE, program_of
from bzlq.cache.store import Kept
from bzlq.cli.answer import Answer
from bzlq.cli.options import OWN, Call
from bzlq.cli.process import Output, Unwritten, ended, write
from bzlq.workspace.files import Refused
from bzlq.workspace.root import root_of

# the words that are modules with a function `main`
MODULES = {
    "affected": "the targets, such as tests, that a change in git concerns",
    "why": "why A depends on B: a shortest path with places",
    "graph": "the graph of a query's targets",
    "users": "the calls of a macro, or the users of a target",
    "loads": "who loads a .bzl file, directly or not",
    "unused": "the rules that nothing depends on",
    "cycles": "the cycles of targets",
    "stubs": "makes a schema, and stubs for other repositories",
    "hints": "explains fault lines: where they are, and why",
    "visible": "whether A may depend on B, and by which line; or the edges that break a visibility",
    "closures": "the targets that depend on most others",
    "shared": "the files that several rules have as sources",
    "diff": "how an answer differs between two revisions of git",
    "join": "joins the facts of parts of a workspace, and answers over the whole",
}
# those that are modules with a function of their name
ASKING = {
    "ask": "answers questions one after another: a prompt on a terminal, plain lines in a pipe",
    "watch": "answers a query after each change of the workspace: what is new, and what is gone",
}
OTHERS = {
    "query": "answers a query, as without a word",
    "facts": "the facts of the targets of a query, or of the whole workspace, as JSON; with --split N parts of it",
    "queries": "answers each line of a file, or of standard input, over one load",
    "owner": "the targets that use files",
    "lint": "the faults of BUILD and .bzl files: of those that have changed according to git, or of FILE ..",
    "bundle": "writes the bundle of the workspace, or of TREE [OVERLAY ..]",
}
WORDS = (*OTHERS, *MODULES, *ASKING)
BUILDERS = ("build", "test", "run", "coverage", "cquery", "aquery", "fetch", "sync", "mod", "info", "clean", "shutdown", "mobile-install")


def listed():
    """A line for each word, for the help."""
    return "".join(f"  {word:<10} {about}\n" for word, about in {**OTHERS, **MODULES, **ASKING}.items())


def explained(word, program):
    """Has bq explain a number, which is given by itself or by its name."""
    numbers = [f"{letter}{n}" for letter, most in (("F", 99), ("Q", 9), ("E", 9)) for n in range(1, most + 1)]
    number = word.upper()
    if number not in numbers:
        number = next((it for it in numbers if name_of(it, program) == word.lower()), word)
    os.execv(program, [program, "--explain", number])


def name_of(number, program):
    """The name of a number in small letters; nothing where bq has no such number."""
    said = subprocess.run([program, "--explain", number], capture_output=True, check=False).stdout.split(None, 2)
    return said[1].decode().lower() if said[1:2] else ""


def answered(words):
    """Answers a query, or what the options ask for."""
    call = Call(words)
    program = program_of(call.values.get("--program", ""))
    if call.raw is not None:
        os.execv(program, [program, *call.raw])
    if "--version" in call.flags:
        os.execv(program, [program, "--version"])
    if "--explain" in call.values:
        explained(call.values["--explain"], program)
    if "--clean" in call.flags:
        Kept(root_of(os.getcwd()), program).remove()
        return 0
    if not call.is_asked():
        raise Refused("no query: bzlq //... lists all rules, and bzlq --help says more")
    return Answer(call, program).give()


def queries(words):
    """The options stand before or after the file."""
    files, options = divided(words, "--")
    return answered([*options, "--queries", files[0] if files else "-"])


def divided(words, mark="-"):
    """The words that are names, and those that are options: of those after `--` none is one."""
    at = words.index("--") if "--" in words else len(words)
    return [it for it in words[:at] if not it.startswith(mark)] + words[at + 1:], [it for it in words[:at] if it.startswith(mark)]


def quoted(name):
    """A name as a word of a query."""
    quote = next((it for it in "\"'" if it not in name), "")
    if not quote:
        raise Refused(f"{name} has both kinds of quotes, so no query can name it")
    return quote + name + quote


def owner(words):
    """The targets of which files are a part."""
    files, options = divided(words)
    if not files:
        raise Refused("owner wants a file")
    named = " ".join(map(quoted, files))
    return answered([*options, "--", f"rdeps(//..., set({named}), 1) - set({named})"])


def bundle(words):
    """Writes the bundle that is kept of this workspace."""
    if words:
        return script("bundle", words)
    kept = Kept(root_of(os.getcwd()), program_of())
    opened, warnings = kept.open()
    try:
        with opened:
            to = Output(sys.stdout)
            shutil.copyfileobj(opened, to)
            to.flush()
    except BrokenPipeError:
        raise
    except OSError as error:
        raise Unwritten(f"standard output: {error.strerror}") from error
    write([f"bzlq: {LARGE}"] if kept.is_large else [], sys.stderr)
    write([f"bzlq: targets may be missing: {it}" for it in warnings], sys.stderr)
    return 0


def linted(words):
    """Writes the faults of files; gives the status."""
    # (not at the top: what explains faults takes long to be there)
    from bzlq.cli.lint import lint
    return lint(words)


def script(name, words):
    """Runs a word's module, as if it was called itself."""
    sys.argv = [name, *words]
    return importlib.import_module(f"bzlq.{'overlay' if name == 'stubs' else 'cli'}.{name}").main() or 0


def print_help():
    """Prints the help of bzlq."""
    print(f"{importlib.import_module('bzlq.__main__').__doc__.strip()}\n\nCommands (most have more in bzlq COMMAND --help):\n{listed()}\nOptions of bzlq itself:\n{OWN}", end="")
    return 0


def run(words):
    """Does what the words say."""
    word, rest = (words or [""])[0], words[1:]
    if word in MODULES or word == "bundle" and rest:
        return script(word, rest)
    if word == "facts" and any(it.partition("=")[0] == "--split" for it in rest):
        return script("split", rest)
    if word in ASKING:
        # (not at the top: they import this)
        module = importlib.import_module(f"bzlq.cli.{word}")
        if rest in (["-h"], ["--help"]):
            print(module.__doc__.strip())
            return 0
        return ended(lambda _: getattr(module, word)(rest), "bzlq")
    if word in OTHERS and rest in (["-h"], ["--help"]) and word != "bundle":
        print(f"bzlq {word}: {OTHERS[word]} (`bzlq --help` has the options)")
        return 0
    if word == "help":
        return run([*rest[:1], "--help"]) if rest else print_help()
    if word == "version":
        return run(["--version", *rest])
    if word in BUILDERS:
        return ended(lambda _: refuse(word), "bzlq")
    does = {"facts": lambda: answered(["--facts", *rest]), "queries": lambda: queries(rest), "owner": lambda: owner(rest), "bundle": lambda: bundle(rest),
            "lint": lambda: linted(rest)}.get(word, lambda: answered(words))
    return ended(lambda _: does(), "bzlq")


def refuse(word):
    """Refuses a word of Bazel's that builds something."""
    raise Refused(f"there is no {word}: bzlq answers questions about what BUILD files declare, and builds nothing (`bzlq query {word}` asks for a target of that name)")
