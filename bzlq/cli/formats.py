"""The forms of an answer that bq itself doesn't write: takes the targets by their labels, the lines of facts, and what shows a path; gives lines."""


def packages(targets, _, __):
    """The packages of the targets, as `bazel query --output=package` writes them: without `//`."""
    return sorted({label.partition(":")[0].removeprefix("//") for label in targets})


def locations(targets, _, path):
    """Where each target is declared, with its kind."""
    return [f"{path(it.file)}:{it.line or 1}: {it.kind} {label}" for label, it in targets.items()]


def graph(targets, _, __):
    """A graph in the language of graphviz."""
    yield "digraph targets {\n  node [shape=box]"
    for label, target in targets.items():
        yield f'  "{label}"'
        yield from (f'  "{label}" -> "{dep}"' for dep in target.deps if dep in targets)
    yield "}"


def objects(_, lines, __):
    """The facts of each target."""
    return [line.decode("utf-8", "surrogateescape") for line in lines.splitlines() if line.startswith(b'{"target"')]


FORMS = {"package": packages, "location": locations, "graph": graph, "jsonl": objects}
