"""A run of the gate: what it takes, by crate and by kind of check (its processes are read in Linux's /proc while it runs), and which of the
must-fail edits it did not refuse."""
import collections
import hashlib
import json
import os
import re
import statistics
import subprocess
import sys
import threading
import time

import kit

TICKS = os.sysconf("SC_CLK_TCK")
# in the order of the table's columns
KINDS = {"crate": "the crate", "tests": "its tests", "edit": "edits", "program": "programs"}
# what the gate says of a file in must-fail/, whether it tried it in this run or in an earlier one
SAID = re.compile(r"^rt: (?:must-fail |crates/)(\w+)/(?:must-fail/)?([^\s:]+): (.*)$", re.M)
# of an edit that is refused only for a name that it took away, or by a limit of the prover, it says so
REFUSED = re.compile(r"refused, as it must be(?! \(only )")


def process(number):
    """A process's parent, its start, and its own processor seconds so far."""
    with open(f"/proc/{number}/stat", encoding="utf-8", errors="replace") as stat:
        words = stat.read().rpartition(")")[2].split()
    return int(words[1]), int(words[19]), (int(words[11]) + int(words[12])) / TICKS


def below(top):
    """All processes that this one started, and theirs, each with its start and its seconds."""
    found = {}
    for name in filter(str.isdigit, os.listdir("/proc")):
        try:
            found[int(name)] = process(name)
        except OSError:
            continue
    under = {top}
    while more := {number for number, (parent, _, _) in found.items() if parent in under} - under:
        under |= more
    return {(number, found[number][1]): found[number][2] for number in under - {top} if number in found}


def check_of(number):
    """The crate and the kind of check that a process is, or None for both."""
    try:
        with open(f"/proc/{number}/cmdline", "rb") as line:
            words = line.read().decode(errors="replace").split("\0")
        folder = os.readlink(f"/proc/{number}/cwd")
    except OSError:
        return None, None
    if "--crate-name" not in words:
        return None, None
    crate = words[words.index("--crate-name") + 1]
    if "/rt-edit-" in folder:
        return crate, "edit"
    if "--test" in words:
        return crate, "tests"
    return crate, "program" if "--crate-checked" in words else "crate"


def copied(pipe, lines):
    """Writes what the gate says to the output, and keeps it."""
    for line in pipe:
        sys.__stdout__.buffer.write(line)
        sys.__stdout__.buffer.flush()
        lines.append(line.decode(errors="replace"))


def watch(command, folder):
    """Runs the gate. Gives its status, what it said, its seconds by the clock, those of a processor that it took itself, and each check with
    its seconds."""
    begun, said = time.monotonic(), []
    ran = subprocess.Popen(command, cwd=folder, stdout=subprocess.PIPE)
    copier = threading.Thread(target=copied, args=(ran.stdout, said))
    copier.start()
    taken, checks = {}, {}
    while ran.poll() is None:
        for key, seconds in below(ran.pid).items():
            taken[key] = seconds
            # (a process has its parent's command line until it begins its own)
            if checks.get(key, (None,))[0] is None:
                checks[key] = check_of(key[0])
        time.sleep(0.3)
    copier.join()
    whole = kit.processor_seconds()
    rows = [(*checks[key], seconds) for key, seconds in taken.items() if checks[key][0]]
    return ran.returncode, "".join(said), time.monotonic() - begun, whole - sum(seconds for _, _, seconds in rows), rows


def remember(rows, path):
    """Adds the checks of a run to those that are kept in a file: a line of JSON each, with the sum of the crate's texts. A later run
    proves only what changed, and what it takes replaces what the same check of the crate took before."""
    known = kept(path) if os.path.exists(path) else {}
    found = collections.Counter()
    for crate, kind, seconds in rows:
        found[crate, kind] += seconds
    known |= {(crate, kind): (seconds, text_of(crate)) for (crate, kind), seconds in found.items()}
    with open(path, "w", encoding="utf-8") as lines:
        lines.writelines(json.dumps([*key, round(seconds, 1), text]) + "\n" for key, (seconds, text) in known.items())
    return [(*key, seconds) for key, (seconds, _) in known.items()]


def kept(path):
    """The checks in such a file: the seconds and the sum of each crate and kind. (A file of an older version of this script has no sums.)"""
    with open(path, encoding="utf-8") as lines:
        rows = [json.loads(line) for line in lines]
    return {(crate, kind): (seconds, *(text or [""])) for crate, kind, seconds, *text in rows}


def text_of(crate):
    """The sum of the files that a crate's checks are about, without those of the crates below it; nothing of a crate of the toolchain."""
    found = hashlib.sha256()
    if not os.path.isdir(f"{kit.ROOT}/crates/{crate}"):
        return ""
    for part in (*kit.PARTS, "must-fail"):
        for at, folders, names in os.walk(f"{kit.ROOT}/crates/{crate}/{part}"):
            folders.sort()
            for name in sorted(names):
                with open(f"{at}/{name}", "rb") as file:
                    found.update(repr((os.path.relpath(at, kit.ROOT), name, file.read())).encode())
    return found.hexdigest()[:24]


def beside(before, after):
    """The lines of a table: what the checks took whose crates have the same texts in both files."""
    yield "kind of check | crates in both, with the same text | before, s | after, s | after over before | a crate's, least, middle and most"
    yield "--- | ---: | ---: | ---: | ---: | ---"
    same = [key for key, (_, text) in before.items() if text and after.get(key, (0, ""))[1] == text]
    for kind, name in [*KINDS.items(), ("", "all")]:
        pairs = [(before[key][0], after[key][0]) for key in same if key[1] == kind or not kind]
        sums, each = [sum(it) for it in zip(*pairs)] or [0, 0], sorted(two / one for one, two in pairs if one)
        if each:
            of_each = f"{each[0]:.2f}, {statistics.median(each):.2f}, {each[-1]:.2f}"
            yield f"{name} | {len(pairs)} | {sums[0]:.0f} | {sums[1]:.0f} | {sums[1] / sums[0]:.2f} | {of_each}"


def edits(crate):
    """The crate's must-fail edits. Whatever lies there is one, also under a name that the gate doesn't read, but for pages that are only read."""
    folder = f"{kit.ROOT}/crates/{crate}/must-fail"
    found = [os.path.relpath(f"{at}/{name}", folder) for at, _, names in os.walk(folder) for name in names]
    return sorted(name for name in found if not name.endswith(".md"))


def not_refused(said, crates):
    """The must-fail edits of these crates that a run did not refuse for what they mean, each with what it said. To the gate an edit that can't be
    applied, or can't be read, is no failure."""
    told = {(crate, os.path.basename(file)): what for crate, file, what in SAID.findall(said)}
    of_each = [(crate, edit, told.get((crate, os.path.basename(edit)), "it was not tried")) for crate in crates for edit in edits(crate)]
    return [(f"{crate}/{edit}", what) for crate, edit, what in of_each if not REFUSED.match(what)]


def table(rows, crates, lines_of):
    """The lines of a table: a crate each, the dearest first, and the sums."""
    seconds = collections.defaultdict(collections.Counter)
    for crate, kind, taken in rows:
        if crate in crates:
            seconds[crate][kind] += taken
    order = sorted(seconds, key=lambda crate: -seconds[crate].total())
    yield "crate | lines of code | " + " | ".join(f"{kind}, s" for kind in KINDS.values()) + " | in all, s | min for 1,000 lines"
    yield "--- | ---: | " + "---: | " * len(KINDS) + "---: | ---:"
    for crate in order:
        lines, of = lines_of(crate), seconds[crate]
        count = len(edits(crate))
        each = [f"{of[kind]:.0f}" + (f" ({count})" if kind == "edit" and count else "") if of[kind] else "" for kind in KINDS]
        yield " | ".join([crate, f"{lines:,}", *each, f"{of.total():.0f}", f"{of['crate'] / 60 * 1000 / max(lines, 1):.1f}"])
    sums = {kind: sum(of[kind] for of in seconds.values()) / 60 for kind in KINDS}
    yield " | ".join(["all, min", f"{sum(map(lines_of, order)):,}", *[f"{it:.0f}" for it in sums.values()], f"{sum(sums.values()):.0f}", ""])
