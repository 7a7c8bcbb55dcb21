"""Words and turns of phrase that pages and `--help` don't use: `TURNS` has each, what to write instead, and a sentence with it."""
import ast
import glob
import os
import re

import kit

# docs/CRATES.md, docs/FAULTS.md and docs/SPEC.md aren't here: scripts write them of crates.txt, of the tables of `bq --explain`, and of definitions
PAGES = ("README.md", "docs/QUERY.md", "docs/TOOLS.md", "docs/FORMATS.md", "docs/REAL_WORKSPACES.md", "docs/LANGUAGE.md", "docs/BUILD_RULES.md",
         "docs/SCALE.md", "docs/CHANGELOG.md", "docs/bq.1", "docs/bzlq.1", "CONTRIBUTING.md", "docs/ARCHITECTURE.md", "docs/CHANGE.md",
         "docs/DECISIONS.md", "docs/GLOSSARY.md", "docs/MEASURED.md", "docs/PROOFS.md", "tests/README.md")
SCRIPTS = ("dev/*", "bench/*", "tests/scripts/*")
# modules of bzlq whose first text is the help of a command, or that have texts of the help in tables
COMMANDS = ("bzlq/__main__.py", "bzlq/cli/*.py", "bzlq/overlay/stubs.py")
TABLES = ("bzlq/cli/subcommands.py", "bzlq/cli/options.py")

TURNS = (
    (r"told|tells?(?! which bytes)", "says, reports", "A call that declares none is told on standard error."),
    (r"stands?|standing|stood", "is, occurs, means, or (for one that stands) you are", "A header stands before each file."),
    (r"(?<!there )(?:is|are|was) none", "is not one", "What begins like a number and is none."),
    (r"(?<!there )(?<!There )(?:is|are) no(?= \w)(?! longer| more)", "is not a", "The text of a load is no label."),
    (r"behind", "after, of", "The facts behind an answer."),
    (r"one's|(?:that|where) one (?:is|asks|has|uses|wants|needs)", "your, you", "A workspace of one's own."),
    (r"goes? before", "takes precedence over, precedes", "F8 goes before all others."),
    (r"comes? to (?:\d+|nothing|the same)", "gives", "The sum comes to 40."),
    (r"gives? way", "is replaced by", "A stub gives way to a file of the tree."),
    (r"begins? no", "no .. can begin with", "A byte that begins no token."),
    (r"held to", "checked against", "Each list is held to the facts."),
    (r"said to be|said, with", "reported", "An empty answer is said to be one."),
    (r"(?:says?|said|speaks?) of", "says about, explains", "What Bazel says of a mistake."),
    (r"of yesterday", "stale", "No answer is of yesterday."),
    (r"in (?:the )?place of", "instead of", "It prints facts in place of labels."),
    (r"as \w+ (?:has|have|had|takes?) (?:it|them)", "as for, as in", "Status 4 and 5 are as bq has them."),
    (r"beneath", "below", "All packages beneath it."),
    (r"all the same", "still", "The target stays all the same."),
    (r"the most of", "most of", "It takes the most of an hour."),
    (r"lawful", "valid", "A lawful path."),
    (r"want of", "out of, without", "It ends for want of memory."),
    (r"belongs? into", "belongs in", "These belong into .bzl files."),
    (r"that there (?:is|are)(?: not|n't)", "invalid, unknown", "An escape that there is not."),
    (r"(?:has|have)n't(?= (?:a|an|the|any|two|its)\b|[;,.:)]| \|)", "doesn't have", "A symbol that the file hasn't."),
    (r"mend(?:s|ed|ing)?", "correct, fix", "Then mend the copy."),
    (r"what came|what went|came, and", "what is new, what is gone", "Lines say what came and what went."),
    (r"by way of", "through", "A file by way of another package."),
    (r"(?:at|to|in) hand", "available", "The facts that are at hand."),
    (r"dear(?:er|est|ly)?", "costly, expensive", "A call that is dear."),
    (r"counts? from the (?:folder|root|place|current)", "is relative to", "A word counts from the current folder."),
    (r"(?:target|word|thing|call|option)s? as (?=`|--)", "such as", "An option as `--output`."),
    (r"(?:reads?|read) as no", "is not a", "A word that reads as no pattern."),
    (r"others alone|these alone|those alone|kinds alone", "only these", "It lists these alone."),
    (r"makes? (?:it|them) otherwise|otherwise than", "differently", "It makes them otherwise."),
)
PATTERN = re.compile("|".join(rf"(?P<t{at}>\b(?:{turn})(?!\w))" for at, (turn, _, _) in enumerate(TURNS)))
CODE = re.compile(r"`[^`]*`")


def prose(path, text):
    """The lines of a page without code: (number, line). In a code span each byte is a backquote, so that no turn reaches over one."""
    fenced = False
    for number, line in enumerate(text.splitlines(), 1):
        if line.lstrip().startswith("```"):
            fenced = not fenced
        elif not fenced and not line.startswith("    "):
            yield number, CODE.sub(lambda found: "`" * len(found[0]), line) if path.endswith(".md") else line


def helps(path, text):
    """The texts of a script's `--help`: (number, line). In its head these are the lines that are not indented, as examples are."""
    tree = ast.parse(text)
    is_command = not path.startswith("bzlq/") or ": bzlq " in (ast.get_docstring(tree) or "").partition("\n")[0]
    if is_command and ast.get_docstring(tree):
        head = tree.body[0].value
        yield from ((head.lineno + at, line) for at, line in enumerate(head.value.splitlines()) if not line.startswith("    "))
    for node in ast.walk(tree):
        if isinstance(node, ast.keyword) and node.arg == "help" and isinstance(node.value, ast.Constant):
            yield node.value.lineno, node.value.value
    for part in tree.body if path in TABLES else []:
        for node in ast.walk(part) if isinstance(part, ast.Assign) else []:
            if isinstance(node, ast.Constant) and isinstance(node.value, str):
                yield from ((node.lineno + at, line) for at, line in enumerate(node.value.splitlines()))


def is_python(path):
    """Whether a file is a script in Python."""
    with open(f"{kit.ROOT}/{path}", "rb") as file:
        return b"python3" in file.readline()


def texts():
    """The texts of users: (path, lines)."""
    for path in PAGES:
        with open(f"{kit.ROOT}/{path}", encoding="utf-8") as file:
            yield path, list(prose(path, file.read()))
    scripts = [os.path.relpath(it, kit.ROOT) for pattern in SCRIPTS for it in sorted(glob.glob(f"{kit.ROOT}/{pattern}")) if os.path.isfile(it)]
    scripts = [it for it in scripts if not it.endswith(".py") and is_python(it)]
    for path in [*scripts, *(os.path.relpath(it, kit.ROOT) for pattern in COMMANDS for it in sorted(glob.glob(f"{kit.ROOT}/{pattern}")))]:
        with open(f"{kit.ROOT}/{path}", encoding="utf-8") as file:
            yield path, list(helps(path, file.read()))


def turns_of(lines):
    """The turns in lines: (number, what is written, what to write instead)."""
    for number, line in lines:
        for found in PATTERN.finditer(line):
            yield number, found[0], TURNS[int(found.lastgroup[1:])][1]


def unseen():
    """The turns that aren't found where they are planted: in a page, in the head of a script, in an option's help."""
    for _, instead, sentence in TURNS:
        page = list(prose("docs/PAGE.md", f"# A page\n\n- {sentence}\n"))
        head = list(helps("dev/script", f'"""{sentence}\n\n    {sentence}\n"""\n'))
        option = list(helps("dev/script", f"parser.add_argument('--x', help={sentence!r})\n"))
        if any((place, instead) not in [(number, it) for number, _, it in turns_of(lines)] for lines, place in ((page, 3), (head, 1), (option, 1))):
            yield sentence
