"""Tries .ci/run and dev/trials: the first has to fail where the gate passes over a must-fail edit that it could not try, or
that it did not refuse for what it means, the second to read which functions the prover did not prove, and why. A script that writes a log stands
for rt, in a repository of two crates; what the prover says of a crate is written here."""
import contextlib
import io
import os
import shutil
import types

from bench import ROOT
import kit

EDITS = ("crates/low/must-fail/one.edit", "crates/low/must-fail/two.edit", "crates/high/must-fail/three.edit")
END = "rt: ok; handles allowed: none\n2 passed, 0 failed\n"
ONE = "rt: must-fail low/one.edit: refused, as it must be: src/lib.rt:3:5: error: this goal is open\n"
TWO = "rt: must-fail low/two.edit: refused, as it must be\n"
THREE = "rt: must-fail high/three.edit: refused, as it must be: note: src/lib.rt:9:1: no proof\n"
EARLIER = "rt: low: 2 of its 2 must-fail edits were tried by an earlier run on this machine, and nothing that they stand on has changed\n"
STALE = "BAD EDIT: an 'old:' text is in src/lib.rt 0 times, and not once"
ODD = "BAD EDIT: an edit stands right in must-fail/, and its name is of letters, digits, _, - and . and ends in .edit (or .md, if it is only to be read)"
NAMED = ("refused, as it must be (only because a proof file names what the edit took away, so this says little of the contract: change a value and keep "
         "the names): proofs/run/Answers.antt:3:1: error: x is not in scope")
LIMIT = "refused, as it must be (only by a limit of the prover, which gave no verdict, so this says less of the contract: choose a change that it refuses sooner): x"
# what the gate says: (its log, what .ci/run writes last, its status)
LOGS = {
    "each edit is refused": (ONE + TWO + THREE, "2 passed, 0 failed", 0),
    "some were in an earlier run": (EARLIER + ONE + TWO + THREE, "2 passed, 0 failed", 0),
    "a text to replace that isn't there": (ONE + f"rt: must-fail low/two.edit: {STALE}\n" + THREE,
                                           f"low/two.edit is not refused for what it means: {STALE}\n2 of the 3 must-fail edits are refused.", 1),
    "an edit that the prover can't read": (ONE + TWO + "rt: must-fail high/three.edit: BAD EDIT: it did not reach the prover; the first lines of what it said:\nno\n",
                                           "high/three.edit is not refused for what it means: BAD EDIT: it did not reach the prover; the first lines of "
                                           "what it said:\n2 of the 3 must-fail edits are refused.", 1),
    "an edit that takes a name away": (f"rt: must-fail low/one.edit: {NAMED}\n" + TWO + THREE,
                                       f"low/one.edit is not refused for what it means: {NAMED}\n2 of the 3 must-fail edits are refused.", 1),
    "an edit that the prover gives no verdict on": (ONE + TWO + f"rt: must-fail high/three.edit: {LIMIT}\n",
                                                    f"high/three.edit is not refused for what it means: {LIMIT}\n2 of the 3 must-fail edits are refused.", 1),
    "edits that the gate says nothing of": (THREE, "low/one.edit is not refused for what it means: it was not tried\nlow/two.edit is not refused for what it "
                                            "means: it was not tried\n1 of the 3 must-fail edits are refused.", 1),
}


def run(bench, log, *files, status=0):
    """What .ci/run writes last, and its status, where the gate writes this log and ends with that status."""
    bench.lay_out("gate", {"crates.txt": "low:\nhigh: low\n", "log": log, "rt": f"#!/bin/sh\ncat log; exit {status}\n", "dev/rows": "#!/bin/sh\n",
                           "dev/release": "#!/bin/sh\n", "tests/scripts/refused_memory": "#!/bin/sh\n", **{path: "" for path in (*EDITS, *files)}})
    for path in (".ci/run", "dev/proofs", "dev/gate.py", "dev/figures.py", "dev/kit.py"):
        os.makedirs(os.path.dirname(f"{bench.room}/gate/{path}"), exist_ok=True)
        shutil.copy(f"{ROOT}/{path}", f"{bench.room}/gate/{path}")
    for path in ("rt", "dev/rows", "dev/release", "tests/scripts/refused_memory"):
        os.chmod(f"{bench.room}/gate/{path}", 0o755)
    written, errors, ended = bench.run("RT=./rt .ci/run", "gate")
    # (what the run took is before that)
    return written.rpartition(" more of a processor.\n")[2].removesuffix("\n"), errors, ended

SOURCE = """//! A crate.
pub fn alone(x: u32) -> u32
    ensures { result ≡ x }
{
    x
}

impl<T: Copy> Pair<T> {
    /// Returns the first.
    pub fn first(&self) -> T
        ensures { result ≡ self.now.0 }
    {
        self.one
    }
}

impl<T> fmt::Debug for Pair<T> {
    fn fmt(&self) -> bool
        ensures { result ≡ true }
    {
        true
    }
}

impl<
    'a,
    F: Copy
        + Fn(&Context<'_>, &mut R) -> Option<i64>,
> Taker<'a, F> {
    #[cycle(takes)]
    fn take(&self) -> bool
        ensures { result ≡ false }
    {
        false
    }

    #[cycle(takes)]
    fn take_all(&self) -> u32
        ensures { result ≡ 2 }
    {
        2
    }
}
"""
OPEN = "note: src/pair.rt:10:5: it is not proved that what the function ensures holds when it returns (`returns`)"
GONE = "./proofs/pair/Pair/first/Answers.antt:3:9: error: `returns`: `c.len` is not in scope"
MISFIT = "./proofs/pair/Pair/first/Answers.antt:3:9: error: `returns`: as printed, the two types first differ"
NONE = "fn low::pair::Pair::first: not proved"
FORM = ("fn low::pair::Pair::first: no proof: expected `first_spec` in ./proofs/pair/Pair/first/Proof.antt; the borrow checker does not cover this function "
        "yet: src/pair.rt:9:9: a loop ends a list")
CALLER = ("fn low::pair::Pair::first: no proof: the borrow checker's part in its proof is not made yet: a call of `low::pair::alone`, which has no proof: help: "
          "prove it first")
# what the prover says of an edit of `first`: (its lines, what dev/trials says)
SAID = {
    "an open goal": ([OPEN, NONE], f"refused: {OPEN}"),
    "a proof that no longer fits": ([MISFIT, NONE], f"refused: {MISFIT}"),
    "a name that is gone": ([GONE, NONE], f"REFUSED ONLY FOR A NAME that a proof has and the edit takes away: {GONE}"),
    "a name that is gone, and an open goal": ([GONE, OPEN], f"refused: {OPEN}"),
    "only that it isn't proved": ([NONE], f"refused: {NONE}"),
    "a form that isn't covered": ([FORM], f"REFUSED ONLY FOR ITS FORM, which the prover does not cover: {FORM}"),
    "a call of a function that isn't covered": ([FORM.replace("Pair::first", "alone"), CALLER], None),
    "another function": (["note: src/pair.rt:3:5: it is not proved that ..", "fn low::pair::alone: no proof"], None),
    "a warning": (["src/pair.rt:10:5: warning: unused", "fn low::pair::Pair::first: proved"], None),
}


def edit(script, folder, name, *texts):
    """An edit of the crate that takes these texts away."""
    trial = script.Trial.__new__(script.Trial)
    trial.name, trial.pairs, trial.why = f"low/{name}", [("src/pair.rt", old, "") for old in texts], ""
    trial.functions = trial.places(folder)
    trial.proofs = {trial.proof(folder, *it) for it in trial.functions}
    return trial


def halves(bench, script, folder):
    """How dev/trials goes on where the prover was broken off: with what it had ended with, and the rest, or else with halves."""
    group = [edit(script, folder, name, old) for name, old in (("one", "    x\n"), ("two", "self.one"), ("three", "true\n"), ("four", "false\n"))]
    room = types.SimpleNamespace(folder=folder)
    for said, cut in (("", ["one", "two"]), ("checked low::pair::Pair::first, 1 of 4\n", ["two"]), ("checked low::pair::PairDebug::fmt, 1 of 4\nchecked "
                      "low::pair::alone, 2 of 4\nbroken off", ["one", "three"])):
        parts = [[it.name.removeprefix("low/") for it in part] for part in script.parts_of_group(room, group, said)]
        bench.compare("dev/trials: a check that was broken off", parts, [cut, [it for it in ("one", "two", "three", "four") if it not in cut]])
    found = script.groups([*group, edit(script, folder, "five", "        2\n")])
    bench.compare("dev/trials: functions that have one proof", [len(it) for it in found], [4, 1])


def fits(bench, script, folder):
    """What dev/trials has the prover check where a name fits no function, or several, and where a text can't be read."""
    for said, asked in (("rattle: error: `low` has no function `pair::alone`: help: write ..", [["pair::alone"], ["pair"]]),
                        ("rattle: error: several functions are named `pair::alone`: help: write one of ..", [["pair::alone"], ["pair"]]),
                        ("src/pair.rt:5:5: error[unknown-name]: cannot find value `y` in this scope", [["pair::alone"]])):
        seen = []
        room = types.SimpleNamespace(folder=folder, check=lambda only, said=said, seen=seen: (seen.append(only), (2, said) if len(seen) == 1 else (1, NONE))[1])
        script.check(room, [edit(script, folder, "one", "    x\n")], True)
        bench.compare("dev/trials: a name that fits nothing", seen, asked)


def refused(bench, script):
    """What dev/trials reads of what the prover keeps of a function's proof: the parts that were refused."""
    kept = {"Answers": '--@ holes []\n--@ refused ["loop-kept"]\n', "Met": '--@ refused ["met"]\n', "Proof": '--@ refused ["returns-in-Ok","returns"]\n--@ saw x\n'}
    bench.lay_out("kept", {f"build/Rattle-low-proofs.pair.Pair.first.{part}.oantt": text for part, text in kept.items()})
    for name, parts in (("low::pair::Pair::first", ["loop-kept", "returns-in-Ok", "returns"]), ("low::pair::alone", [])):
        bench.compare("dev/trials: the parts that were refused", script.refused_parts(f"{bench.room}/kept", name), parts)


def trials(bench):
    """What dev/trials reads of the prover's lines, and how it names functions to the prover."""
    script = kit.module_of(f"{ROOT}/dev/trials")
    bench.lay_out("crate", {"src/pair.rt": SOURCE})
    folder = f"{bench.room}/crate"
    trial = edit(script, folder, "first_is_second", "    x\n", "self.one", "true\n", "false\n")
    bench.compare("dev/trials: names of functions", [*script.paths_of(folder, trial)], ["pair::alone", "Pair::first", "PairDebug::fmt", "Taker::take"])
    halves(bench, script, folder)
    fits(bench, script, folder)
    refused(bench, script)
    for what, (lines, said) in SAID.items():
        found, written = script.failed_in("\n".join(lines), folder).get(("src/pair.rt", 1)), io.StringIO()
        with contextlib.redirect_stdout(written):
            verdict = script.told(trial, found) if found else None
        wanted = (f"trials: low/first_is_second: {said}\n", said.startswith("refused")) if said else ("", None)
        bench.compare(f"dev/trials: {what}", (written.getvalue(), verdict), wanted)


def check(bench):
    """Tries all of it."""
    trials(bench)
    for what, (log, last, status) in LOGS.items():
        found, *rest = run(bench, log + END)
        bench.compare(f".ci/run: {what}", (found if status else found.rpartition("\n")[2], *rest), (last, "", status))
    bench.compare(".ci/run: the gate's own failure", run(bench, ONE + TWO + THREE + "1 passed, 1 failed\n", status=1),
                  ("3 of the 3 must-fail edits are refused.", "", 1))
    bench.compare(".ci/run: a page beside the edits", run(bench, ONE + TWO + THREE + END, "crates/low/must-fail/README.md")[1:], ("", 0))
    odd = "crates/high/must-fail/four.edit~"
    bench.compare(".ci/run: an edit under another name", run(bench, ONE + TWO + THREE + f"rt: {odd}: {ODD}\n" + END, odd),
                  (f"high/four.edit~ is not refused for what it means: {ODD}\n3 of the 4 must-fail edits are refused.", "", 1))
