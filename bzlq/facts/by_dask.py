"""A query over parts of a workspace by workers of Dask: takes the address of a scheduler, and the parts, which are bundles or facts; gives the answer.

Each part is loaded by a worker (`bq --facts`), which gives a block of it for each partition; a shuffle of Dask's bag brings the blocks there. A
partition has the labels of some packages, and of each label the target, what that names, and which targets name it. Edges are followed by
frontiers: in each round every partition gets those labels of the frontier that are its own, and gives what they lead to. What a worker had that
ends is made again by others, as Dask does by itself. The workers need Python, Dask and bq, and see the files of the parts by the same paths; these
scripts go along.
"""
import logging
import os
import subprocess
import tempfile
import zipfile
import zlib
from dataclasses import dataclass
from operator import itemgetter

from bzlq.bq import ended_by, text_of
from bzlq.facts.query_tree import Let, Name, Sets, Word
from bzlq.facts.sections import Marks, fault_key, fault_line, is_build, sections
from bzlq.overlay.assembly import run_options
from bzlq.workspace.files import Refused

try:
    from dask import bag, config, delayed
    from distributed import Client, TimeoutError, futures_of
except ImportError:
    raise Refused("Dask isn't installed: apt-get install python3-distributed (Debian), or pip install distributed") from None

# how long the scheduler may take to answer, in seconds
PATIENCE = 60
# the folder of these scripts
SCRIPTS = os.path.dirname(os.path.dirname(os.path.realpath(__file__)))


# (what tasks of its own leave at the end is no part of an answer; an error of one that counts is raised)
logging.getLogger("asyncio").setLevel(logging.CRITICAL)


# what a worker does


def lines_of(path, program):
    """The lines of facts of a part."""
    with open(path, "rb") as file:
        if not file.read(4) == b"=== ":
            file.seek(0)
            return file.read().splitlines(True)
    ended = subprocess.run([program, *run_options(True), "--jobs=1", "--bundle", path, "--facts"], stdin=subprocess.DEVNULL, capture_output=True, check=False)
    if ended.returncode not in (0, 3):
        raise ended_by(program, ended.returncode, text_of(ended.stderr).splitlines(), "--facts")
    return ended.stdout.splitlines(True)


def loaded(path, program):
    """The sections of a part."""
    return list(sections(lines_of(path, program), path))


def blocks_of(found, count):
    """The block of each partition: its number, its targets, which targets name each of its labels, and the faults of these labels."""
    blocks, users, faults, texts = [(at, [], [], []) for at in range(count)], {}, {}, {}
    for section in found:
        for it in section.targets:
            # (one text for all that say a label: a block goes from worker to worker with each of its texts once)
            label, *names = (texts.setdefault(text, text) for text in (it["target"], *it.get("names", ())))
            blocks[number(label, count)][1].append((label, (it["kind"], it["file"], it.get("line"), tuple(names))))
            for name in names:
                if name != label:
                    users.setdefault(name, []).append(label)
        for it in section.faults:
            if it["fault"] == "F79":
                faults.setdefault(it["detail"], []).append(tuple(it.items()))
    for place, rows in ((2, users), (3, faults)):
        for label, told in rows.items():
            blocks[number(label, count)][place].append((label, told))
    return blocks


@dataclass
class Summary:
    """What a section says beside its rows: of its modules the BUILD files, and no fault of a label that names nothing."""

    place: str
    mark: tuple
    elsewhere: set
    modules: list
    faults: list
    kinds: set


def summary_of(found):
    """The summaries of sections."""
    return [Summary(it.place, it.mark, it.elsewhere, [m for m in it.modules if is_build(m["module"])], [f for f in it.faults if f["fault"] != "F79"],
                    {t["kind"] for t in it.targets}) for it in found]


def number(label, count):
    """The partition of a label, which is that of its package: most labels name others of their own."""
    return zlib.crc32(label.partition(":")[0].encode()) % count


class Partition:
    """The targets of a partition, each with its row; who uses each label, and the faults of those that name it."""

    def __init__(self, groups):
        self.numbers, self.targets, self.users, self.faults = {it for it, _ in groups}, {}, {}, {}
        for _, targets, users, faults in (block for _, blocks in groups for block in blocks):
            for label, value in targets:
                if self.targets.setdefault(label, value) != value:
                    raise Refused(f"the target {label} is in two parts, and isn't the same in both")
            # (a block may be used once more, where a worker ends, so its lists stay as they are)
            for known, rows in ((self.users, users), (self.faults, faults)):
                for label, told in rows:
                    known[label] = known[label] + told if label in known else told

    def numbers_of(self):
        """The numbers by which its labels are known."""
        return self.numbers

    def step(self, labels, is_back):
        """Those of these labels that are targets, and what they lead to."""
        there = [it for it in labels if it in self.targets]
        return there, {to for it in there for to in (self.users.get(it, ()) if is_back else self.targets[it][3])}

    def matching(self, word):
        """The targets of a word that names more than one."""
        first = word.package if word.package.endswith("//") else f"{word.package}/"
        return [label for label, (kind, *_) in self.targets.items() if (not word.is_rules or kind.endswith(" rule"))
                and (label.partition(":")[0] == word.package or word.is_below and label.startswith(first))]

    def kinds(self, labels):
        """These targets with their kinds."""
        return [(it, self.targets[it][0]) for it in labels if it in self.targets]

    def dangling(self):
        """The faults of labels that name no target."""
        return {fault for label, faults in self.faults.items() if label not in self.targets for fault in faults}


def call(partition, name, *arguments):
    """Calls a function of a partition, of which a partition of a bag has one."""
    return getattr(partition[0], name)(*arguments)


def made(groups):
    """The partition of these groups."""
    return [Partition(list(groups))]


# what asks the workers


class Joined:
    """The parts, in the memory of workers. `faults` are the fault lines of the whole, `lacking` says what isn't there, `kinds` are those of all targets."""

    def __init__(self, address, paths, program):
        try:
            self.client = Client(address, timeout=PATIENCE, set_as_default=False)
        except (OSError, ValueError) as error:
            raise Refused(f"no scheduler of Dask answers at {address}: {error}") from None
        try:
            self.client.wait_for_workers(1, PATIENCE)
        except TimeoutError:
            self.client.close()
            raise Refused(f"the scheduler at {address} has no workers") from None
        try:
            self.load(paths, program)
        except BaseException:
            self.client.close()
            raise

    def load(self, paths, program):
        """Has workers load the parts."""
        with tempfile.TemporaryDirectory() as folder:
            self.client.upload_file(zipped(f"{folder}/bzlq.zip"))
        parts = [delayed(loaded)(os.path.abspath(it), program) for it in paths]
        blocks = bag.from_delayed([delayed(blocks_of)(it, len(paths)) for it in parts])
        index = blocks.groupby(itemgetter(0), shuffle="tasks").map_partitions(made)
        # (a task that Dask fuses with the next one is done once more for others that need it: each part would be loaded twice)
        with config.set({"optimization.fuse.active": False}):
            self.index, *summaries = self.client.persist([index, *(delayed(summary_of)(it) for it in parts)])
        self.count, self.partitions = len(paths), futures_of(self.index)
        numbers = self.each("numbers_of", [()] * len(self.partitions))
        self.at = {number: at for at, found in enumerate(numbers) for number in found}
        self.take([section for part in self.client.gather(self.client.compute(summaries)) for section in part])

    def __enter__(self):
        return self

    def __exit__(self, *_):
        self.client.close()

    def each(self, name, arguments):
        """Calls a function of each partition for which there are arguments."""
        return self.client.gather([self.client.submit(call, it, name, *of, pure=False) for it, of in zip(self.partitions, arguments) if of is not None])

    def take(self, summaries):
        """Takes what parts say beside their targets."""
        marks, faults = Marks(), []
        self.kinds, self.packages = set(), set()
        for it in summaries:
            marks.add(it)
            faults += it.faults
            self.kinds |= it.kinds
            self.packages |= {module["module"].partition(":")[0] for module in it.modules}
        faults += [dict(it) for found in self.each("dangling", [()] * len(self.partitions)) for it in found]
        self.faults = list(dict.fromkeys(map(fault_line, sorted(faults, key=fault_key))))
        self.lacking = list(marks.lacking())

    def by_partition(self, labels):
        """The arguments for each partition that has some of these labels."""
        found = {}
        for it in labels:
            found.setdefault(self.at.get(number(it, self.count)), []).append(it)
        return [found.get(at) for at in range(len(self.partitions))]

    def has_package(self, label):
        """Whether there is a package."""
        return label in self.packages

    def has_target(self, label):
        """Whether there is a target."""
        return bool(self.with_kinds([label]))

    def with_kinds(self, labels):
        """Those of these labels that are targets, with their kinds, in order."""
        found = self.each("kinds", [it and (it,) for it in self.by_partition(labels)])
        return sorted(it for part in found for it in part)

    def closure(self, starts, is_back, depth):
        """What edges lead to from these targets, at most as many as the depth says: a round for each further edge."""
        found, asked, frontier = set(), set(), set(starts)
        while frontier and (depth is None or depth >= 0):
            asked |= frontier
            rounds = self.each("step", [it and (it, is_back) for it in self.by_partition(frontier)])
            found.update(*(there for there, _ in rounds))
            frontier = set().union(*(following for _, following in rounds)) - asked
            depth = None if depth is None else depth - 1
        return found

    def answer(self, tree, kinds_of):
        """The targets of a query with their kinds, in order. `kinds_of` gives the kinds that a pattern has."""
        return self.with_kinds(self.of(tree, {}, kinds_of))

    def of(self, tree, names, kinds_of):
        """The labels of a tree. `names` has those of variables."""
        if isinstance(tree, Word):
            return {tree.text} if tree.name else set().union(*self.each("matching", [(tree,)] * len(self.partitions)))
        if isinstance(tree, Name):
            return names[tree.name]
        if isinstance(tree, Let):
            return self.of(tree.body, {**names, tree.name: self.of(tree.value, names, kinds_of)}, kinds_of)
        if isinstance(tree, Sets):
            left, right = self.of(tree.left, names, kinds_of), self.of(tree.right, names, kinds_of)
            return left | right if tree.operator == "+" else left & right if tree.operator == "^" else left - right
        arguments = [it if isinstance(it, str) else self.of(it, names, kinds_of) for it in tree.arguments]
        return self.call(tree.function, arguments, kinds_of)

    def call(self, function, arguments, kinds_of):
        """The labels of a call."""
        depth = int(arguments[-1]) if arguments and isinstance(arguments[-1], str) else None
        match function:
            case "set":
                return set().union(*arguments)
            case "deps":
                return self.closure(arguments[0], False, depth)
            case "rdeps":
                return self.closure(arguments[0], False, None) & self.closure(arguments[1], True, depth)
            case "allpaths":
                return self.closure(arguments[0], False, None) & self.closure(arguments[1], True, None)
            case "kind":
                kinds = set(kinds_of(arguments[0]))
                return {label for label, kind in self.with_kinds(arguments[1]) if kind in kinds}
        raise Refused(f"{function} isn't answered over parts")


def zipped(path):
    """Writes these scripts as one file, which workers import; gives its path."""
    with zipfile.ZipFile(path, "w") as file:
        for folder, _, names in os.walk(SCRIPTS):
            # (a folder has an entry of its own, since a package without __init__.py is found by that)
            for name in ["", *(it for it in names if it.endswith(".py"))]:
                file.write(f"{folder}/{name}", os.path.relpath(folder, os.path.dirname(SCRIPTS)) + f"/{name}")
    return path
