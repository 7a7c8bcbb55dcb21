"""Dependencies of which a rule's sources name nothing: takes the facts of targets and the texts of files, gives the edges that a rule may not need.

A rule is judged by the words of its own sources. It names another if one of these words is a name of the other's files without the ending (`strings`
of strings.h), of its folder where files are imported by that (Go, and `__init__.py`), or of its crate. What a dependency leads to counts too, unless
the rule's other dependencies lead there.
"""
import os
import re
from collections import Counter, defaultdict

from bzlq.facts.graph import reached
from bzlq.overlay.rule_sets import TYPES

# rules whose sources name what they use
FAMILIES = ("cc_", "go_", "java_", "objc_", "proto_", "py_", "rust_")
# what a rule is made of, and by what it uses others
SOURCES = ("srcs", "hdrs", "textual_hdrs")
USES = ("deps", "implementation_deps")
HEADERS = (".h", ".hh", ".hpp", ".hxx", ".inc", ".inl", ".H", ".h++", ".tcc")
WORD, LONGER = re.compile(r"\w+"), re.compile(r"[\w+-]+")
VERSION = re.compile(r"v\d+")

OUTSIDE, UNREAD, MADE_UP, LINKED = "lead out of the workspace", "have sources that aren't files here", "lead to rules whose files aren't known", "are linked for what they do"


def values(target, names):
    """The labels of some attributes."""
    return [it for name in names for it in (target.attributes.get(name) if isinstance(target.attributes.get(name), list) else ())]


def kind_of(target):
    """The rule of a target; nothing for what isn't one."""
    return target.kind.removesuffix(" rule") if target.kind.endswith(" rule") else ""


def stem(label):
    """A file's name without its folder and endings."""
    return label.rpartition(":")[2].rpartition("/")[2].split(".")[0]


class Edges:
    """The edges of a workspace, and what was found out of its rules. `text_of` gives the text of a file's path, or nothing."""

    def __init__(self, targets, text_of):
        self.targets, self.text_of, self.unjudged = targets, text_of, Counter()
        self.named_by = defaultdict(set)
        for label, target in targets.items():
            for word in self.names(label, target):
                self.named_by[word].add(label)

    def names(self, label, target):
        """The words that name a target."""
        package, _, name = label.rpartition("//")[2].partition(":")
        if not kind_of(target):
            files = [label]
        else:
            files = values(target, (*SOURCES, "outs"))
        for file in files:
            folder = os.path.dirname(file.rpartition("//")[2].replace(":", "/", 1)).rpartition("/")[2]
            yield folder if stem(file) == "__init__" or file.endswith(".go") else stem(file)
            if file.endswith(".rs"):
                yield name.replace("-", "_")
        if path := target.attributes.get("importpath"):
            yield next((it for it in reversed(str(path).split("/")) if not VERSION.fullmatch(it)), package)

    def words(self, target):
        """The words of a rule's sources; nothing where they aren't all here."""
        found = set()
        for label in values(target, SOURCES):
            source = self.targets.get(label)
            text = self.text_of(source.file) if source and source.kind == "source file" else None
            if text is None:
                return None
            found.update(WORD.findall(text), LONGER.findall(text))
        return found

    def unknown(self, label):
        """Why it isn't known what a target's names are; nothing where it is."""
        target = self.targets.get(label)
        if not target or label.startswith("@"):
            return OUTSIDE
        return MADE_UP if kind_of(target) and (target.lost or kind_of(target) not in TYPES) else ""

    def is_file(self, label):
        """Whether a label is that of a file, such as a linker script."""
        return label in self.targets and self.targets[label].kind.endswith(" file")

    def is_linked(self, target):
        """Whether a rule is used by being linked: it has code and no header, or is always linked."""
        files = values(target, SOURCES)
        return bool(target.attributes.get("alwayslink")) or kind_of(target).startswith("cc_") and bool(files) and not any(it.endswith(HEADERS) for it in files)

    def next_of(self, label):
        """What a target depends on."""
        return self.targets[label].deps if label in self.targets else ()

    def unused(self, target):
        """The dependencies that a rule may not need; it can do without all of them at once."""
        uses = [it for it in dict.fromkeys(values(target, USES)) if it not in values(target, ("exports",)) and not self.is_file(it)]
        if not kind_of(target).startswith(FAMILIES) or not values(target, SOURCES) or not uses:
            return []
        words = self.words(target)
        if words is None or target.lost:
            self.unjudged[UNREAD if words is None else MADE_UP] += len(uses)
            return []
        named, found = set().union(*(self.named_by[it] for it in words if it in self.named_by)), []
        for label in uses:
            others = reached([it for it in target.deps if it != label and it not in found], self.next_of) if label not in named else {}
            only = [] if label in named else [label, *reached([label], lambda it, others=others: [dep for dep in self.next_of(it) if dep not in others])]
            if label in named or any(it in named for it in only):
                continue
            why = next(filter(None, map(self.unknown, only)), "") or (LINKED if self.is_linked(self.targets[label]) else "")
            self.unjudged[why] += 1
            found += [] if why else [label]
        return found

    def told(self):
        """What there is to say of the dependencies that weren't judged."""
        counts = Counter({why: count for why, count in self.unjudged.items() if why})
        if counts:
            yield f"{sum(counts.values())} dependencies aren't judged: " + ", ".join(f"{count} {why}" for why, count in counts.most_common())
