"""The definitions of the repository: pages of `specs/` come in; each definition with its comment, its text and what it uses goes out.

A definition is named by its crate, its page (such as `Run`, or `declared.Token` for what the prover makes of a type) and its name.
"""
import os
import re

ROOT = os.path.dirname(os.path.dirname(os.path.realpath(__file__)))
USE = re.compile(r"^(?:(?:unfoldable )?pub )?use Rattle\.(\w+)\.specs\.([\w.\-«»]+?)(?:\.\{([^}]*)\}|\s+as\s+(\S+))\s*$")
PASSED_ON = re.compile(r"^pub use Rattle\.(\w+)\.specs\.((?:[\w\-]+\.)*([\w\-]+))\s*$")
DECLARED = re.compile(r"^\s*(?:abbrev|unfoldable|opaque)(?: mutual)?(?: pub)? ([^\s:({]+)\s*[:({]")
TYPE = re.compile(r"^\s*(?:pub )?(?:data|record) (?:pub )?(?!where\b|in\b|\{)([^\s:({]+)")
SIGNATURE = re.compile(r"^(?:pub )?([^\s:({=]+)\s*:\s")


class Definition:
    """A definition: where it stands, the comment before it, and its lines."""

    def __init__(self, key, line, comment, text):
        self.key, self.line, self.comment, self.text = key, line, comment, [text]

    @property
    def name(self):
        """Its name on its page."""
        return self.key[2]

    def lines(self):
        """How many of its lines are neither empty nor comments."""
        return sum(1 for line in self.text if line.strip() and not line.strip().startswith("--"))


class Page:
    """A page of definitions: these by name, in its order, and what it takes from others."""

    def __init__(self, crate, page, path):
        self.crate, self.page, self.path = crate, page, path
        self.definitions, self.names, self.modules, self.head = {}, {}, {}, []
        with open(path, encoding="utf-8") as file:
            self.read(file.read().split("\n"))

    def read(self, lines):
        """Reads the lines of a page."""
        comment, last, begun = [], None, False
        for number, line in enumerate(lines, 1):
            bare = line.strip()
            if bare.startswith("--"):
                comment.append(bare[2:].strip())
            elif not bare:
                comment = []
            elif USE.match(line):
                if not begun:
                    self.head, begun = comment, True
                self.take(*USE.match(line).groups())
                comment = []
            elif (name := declared(line)) is not None:
                last = Definition((self.crate, self.page, name), number, comment, line)
                self.definitions.setdefault(name, last)
                comment = []
            elif last is not None and not re.match(r"\s*(pub )?(mod |mutual|module\b)", line):
                last.text.extend([f"{line[: len(line) - len(line.lstrip())]}-- {it}" for it in comment] + [line])
                comment = []

    def take(self, crate, page, names, alias):
        """Notes what an import names."""
        if alias:
            self.modules[alias] = (crate, page)
            return
        for name in names.split(","):
            given, _, here = name.strip().partition(" as ")
            if given:
                self.names[here or given] = (crate, page, given)


def declared(line):
    """The name that a line declares, or None."""
    found = DECLARED.match(line) or TYPE.match(line)
    if found:
        return None if found[1] == "mutual" else found[1]
    found = None if line[:1].isspace() or line.startswith("--") else SIGNATURE.match(line)
    return found[1] if found and found[1] not in ("use", "mod", "pub") else None


def passed_on(top):
    """The pages that a crate passes on from crates below, by their names here."""
    if not os.path.exists(f"{top}/Lib.antt"):
        return {}
    with open(f"{top}/Lib.antt", encoding="utf-8") as file:
        return {line[3]: (line[1], line[2]) for line in map(PASSED_ON.match, file) if line}


def pages():
    """All pages of the repository's crates, by crate and page; a page that other crates pass on, by their names too."""
    found, passed = {}, {}
    for crate in sorted(os.listdir(f"{ROOT}/crates")):
        top = f"{ROOT}/crates/{crate}/specs"
        passed |= {(crate, page): at for page, at in passed_on(top).items()}
        for at, _, files in sorted(os.walk(top)):
            for file in sorted(files):
                if file.endswith(".antt") and file != "Lib.antt":
                    page = os.path.relpath(f"{at}/{file}", top)[: -len(".antt")].replace("/", ".")
                    found[crate, page] = Page(crate, page, f"{at}/{file}")
    return found | {page: found[at] for page, at in passed.items() if at in found}


def words_of(text):
    """The words of a text of definitions, also those between the dots of a qualified name."""
    bare = re.sub(r'--.*|"[^"]*"', "", text)
    whole = re.findall(r"[^\s(){};,\[\]]+|\[\]", bare)
    return whole, {part for word in whole for part in [word, *word.split(".")]}


def is_said(name, words):
    """Whether these words have a name, or the signs of an operator that has places."""
    return name in words or "◌" in name and all(sign in words for sign in name.split("◌") if sign)


def named_in(text, names, modules):
    """What a text names, where these names and modules are in scope."""
    whole, words = words_of(text)
    found = {key for name, key in names.items() if is_said(name, words)}
    for alias, (crate, page) in modules.items():
        found |= {(crate, page, word[len(alias) + 1 :].split(".")[0]) for word in whole if word.startswith(f"{alias}.")}
    return found


def uses_of(definition, known):
    """What a definition uses, on its own page and on others."""
    page = known[definition.key[:2]]
    own = {name: it.key for name, it in page.definitions.items() if name != definition.name}
    return named_in("\n".join(definition.text), {**page.names, **own}, page.modules)


def holder_of(key, known):
    """The definition that a key names: itself, one of another page that the key's page passes on, or the type that has it as a case or a
    field. None for what no page of the repository says."""
    crate, page, name = key
    if (crate, page) not in known:
        return None
    definitions, passed = known[crate, page].definitions, known[crate, page].names
    if name in definitions:
        return definitions[name]
    if name in passed:
        return holder_of(passed[name], known)
    part = re.compile(rf"(^|\s){re.escape(name)}\s*:")
    return next((it for it in definitions.values() if TYPE.match(it.text[0]) and part.search("\n".join(it.text))), None)


def reached_from(roots, known):
    """All definitions that these keys lead to, in the order in which a reader meets them first; and the kit's words among them."""
    found, order, outside, waiting = set(), [], set(), list(roots)
    while waiting:
        key = waiting.pop(0)
        definition = holder_of(key, known)
        if definition is None:
            outside.add(key)
        elif definition.key not in found:
            found.add(definition.key)
            order.append(definition)
            waiting += sorted(uses_of(definition, known) - found)
    return order, outside
