"""Hints of fault lines, kept from run to run: takes the file in which they are kept, what they depend on anyway, and the sources; gives the hint of a
line where all that it was made of is as it was.

With each line stand the sums of the texts that were looked at, the questions that were asked about the names of files with their answers, and,
where all names were looked at, a sum of these.
"""
from bzlq.cache.plain import keep_at, kept_at

# of how many texts a hint may be made that is kept
MOST = 100


class KeptHints:
    """`now` has those of this run, by the texts of their lines."""

    def __init__(self, path, version, around, sources):
        self.path, self.version, self.around, self.sources, self.now = path, version, [around, sources.sum_of_schema()], sources, {}
        self.answers = {}  # those to questions about names now: many hints ask the same ones
        kept = kept_at(path, version) or {}
        self.before = kept["lines"] if kept.get("around") == self.around else {}

    def of(self, line):
        """The hint of a line; nothing where it isn't kept, or something is another than it was."""
        if line not in self.before:
            return None
        found, texts, asked, names = self.before[line]
        is_same = all(self.sources.sum_of(path) == it for path, it in texts.items()) and (not names or names == self.sources.sum_of_names())
        if not is_same or any(self.answer(name, given) != answer for name, given, answer in asked):
            return None
        self.now[line] = self.before[line]
        return found

    def answer(self, name, given):
        """The answer to a question about names now."""
        if (name, given) not in self.answers:
            self.answers[name, given] = self.sources.again(name, given)
        return self.answers[name, given]

    def put(self, line, found, seen):
        """Keeps the hint of a line, and what was seen while it was made; not where that was nearly all."""
        if len(seen.texts) > MOST:
            return
        texts = {path: self.sources.sum_of(path) for path in seen.texts}
        asked = [(name, given, answer) for (name, given), answer in seen.asked.items()]
        self.now[line] = (found, texts, asked, self.sources.sum_of_names() if seen.is_all else "")

    def keep(self):
        """Writes those of this run."""
        if self.now != self.before:
            keep_at(self.path, self.version, {"around": self.around, "lines": self.now})
