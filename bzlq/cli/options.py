"""The words of a call of bzlq: takes them, gives the options of bq, the query, and what bzlq itself is to do."""
from bzlq.cli.formats import FORMS
from bzlq.hints.suggestions import did_you_mean
from bzlq.workspace.files import Refused

WITH_VALUE = ("--jobs", "--output", "--max-steps", "--explain", "--queries", "--program")
FLAGS = ("--large", "--facts", "--bundle-path", "--all", "--clean", "--raw", "--strict", "--version")
# words of Bazel's that say what bq does anyway
IGNORED = ("-k", "--keep_going", "--noimplicit_deps", "--noimplicit_deps=true", "--implicit_deps=false", "--notool_deps", "--noshow_progress",
           "--show_progress=false", "--noshow_loading_progress", "--color=no", "--order_output=full", "--order_output=auto")
# the forms of an answer that bq itself writes, and Bazel's that are left out
OF_BQ = ("label", "label_kind")
LEFT_OUT = ("build", "maxrank", "minrank", "proto", "streamed_jsonproto", "streamed_proto", "xml")
# what --jobs and --max-steps may be at most
MOST = {"--jobs": 256, "--max-steps": 1_000_000_000}
OWN = """  --output FORM      label, label_kind; package, location, graph, or jsonl: the facts of each target
  --facts [QUERY]    the facts of the targets of the answer, or of the whole workspace, as JSON
  --queries FILE     answer each line of a file (- is standard input) over one load; words are relative as in a query
  --large            give bq --large, which bzlq does by itself where a workspace needs it
  --bundle-path      bring the bundle up to date, and print its path
  --raw              run bq with the other arguments as they are
  --strict           status 3 where the answer is an approximation in any way (docs/REAL_WORKSPACES.md)
  --all              list also the faults that follow from others
  --program PROGRAM  the program bq (else $BZLQ_BQ, else the one of this repository)
  --clean            remove what is kept for this workspace
  --version          the version of bq
"""


class Call:
    """`values` are the options with a value, by their names; `flags` the others."""

    def __init__(self, words):
        self.values, self.flags, self.queries = {}, set(), []
        self.raw = [it for it in words if it != "--raw"] if "--raw" in words else None
        if self.raw is None:
            self.read(iter(words))
            self.check()

    def read(self, words):
        """Sorts the words."""
        for word in words:
            name, equals, value = word.partition("=")
            if word == "--":
                self.queries += words
            elif name in WITH_VALUE:
                value = value if equals else next(words, None)
                if value is None:
                    raise Refused(f"{word} wants a value")
                self.values[name] = value
            elif word in FLAGS:
                self.flags.add(word)
            elif word in IGNORED or word == "query" and not self.queries:
                continue
            elif word.startswith("--"):
                raise Refused(f"there is no option {name}{did_you_mean(name, [*WITH_VALUE, *FLAGS])}")
            else:
                self.queries.append(word)

    def check(self):
        """Refuses values that an option doesn't take."""
        form, forms = self.values.get("--output", "label"), (*OF_BQ, *FORMS)
        if form not in forms:
            other = ": bzlq facts has kinds, attributes and edges as JSON" if form in LEFT_OUT else did_you_mean(form, forms)
            raise Refused(f"there is no --output {form}{other}; it takes {', '.join(forms)}")
        if "--queries" in self.values and form not in OF_BQ:
            raise Refused(f"--output {form} goes with one query: many are answered as {' or '.join(OF_BQ)}")
        for name, most in MOST.items():
            value = self.values.get(name, "1")
            if not value.isascii() or not value.isdecimal() or not 1 <= int(value[:30]) <= most:
                raise Refused(f"{name} takes a number of 1 to {most:,}, and not '{value}'")

    def of_bq(self, *names):
        """These options, as bq takes them."""
        return [f"{name}={self.values[name]}" for name in names if name in self.values]

    def is_asked(self):
        """Whether there is something to answer."""
        return bool(self.queries or {"--facts", "--bundle-path"} & self.flags or "--queries" in self.values)
