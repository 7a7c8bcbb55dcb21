"""A query over parts of a workspace: has bq check the text, and takes its tree. What bq looks up in a workspace, and what it says of a word that names
nothing, is said here of the parts."""
import functools
import subprocess

from bzlq.bq import ERROR, ProcessError, QueryError, bytes_of, ended_by, text_of
from bzlq.facts.query_tree import tree_of, words_of

# a workspace with a target for each text, whose attribute `text` has it
SCHEMA = b"=== rules.schema\nrule one\nattr text string\n=== BUILD\n"


def answer(program, query, bundle=b""):
    """The lines of bq's answer over a bundle; raises what it says of the query otherwise."""
    try:
        ended = subprocess.run([program, "--jobs=1", "--", bytes_of(query)], input=bundle, capture_output=True, check=False)
    except OSError as error:
        raise ProcessError(f"{error.filename or program}: {error.strerror}") from error
    if ended.returncode in (0, 3):
        return text_of(ended.stdout).splitlines()
    lines = text_of(ended.stderr).splitlines()
    error = ERROR.fullmatch(lines[-1]) if lines else None
    if error and error["number"].startswith("Q"):
        raise QueryError(error["number"], error["name"], error["detail"])
    raise ended_by(program, ended.returncode, lines, "--jobs")


@functools.lru_cache(maxsize=64)
def read(program, query):
    """The tree of a query; raises what is wrong with its text."""
    try:
        answer(program, query)
    except QueryError as error:
        # (of targets and packages an empty workspace has none)
        if error.number not in ("Q5", "Q6"):
            raise
    return tree_of(query)


def matching(program, pattern, texts):
    """Those of these texts, none of which has a quote, that a pattern of a query has."""
    quote = next(it for it in "\"'" if it not in pattern)
    texts = list(texts)
    bundle = SCHEMA + "".join(f'one(name = "{at}", text = "{text}")\n' for at, text in enumerate(texts)).encode()
    return [texts[int(it.rpartition(":")[2])] for it in answer(program, f"attr(text, {quote}{pattern}{quote}, //:all)", bundle)]


def check_words(tree, has_package, has_target):
    """Raises what bq says of the first word that names no package, or no target; the functions say which labels are there."""
    for it in words_of(tree):
        if not it.is_below and not has_package(it.package):
            raise QueryError("Q6", "NoSuchPackage", it.text)
        if it.name and not has_target(it.text):
            raise QueryError("Q5", "NoSuchTarget", it.text)
