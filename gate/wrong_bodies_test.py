#!/usr/bin/env python3
"""Shows that wrong_bodies.py tells a refused body from one that is harmless, that can't be tried, or that is mistaken.

It tries edits of a crate that it writes itself, in two batches, and reads a few outputs of checks that are written here.
It shows too that the record of refused ones speaks of a crate only as long as nothing that its checks read has changed.
The last line is 'test of the script: N passed, M failed'.
"""
import contextlib
import copy
import io
import os
import sys
import tempfile
import types

import record
import wrong_bodies
from edits import Edit, Fault, read_edit
from judging import FOR_CALLEE, NAME_ALONE, PROVED, REFUSED, UNTOLD, Output, disturbed
from record_test import facts_of_sums
from wrong_bodies import FAULT, NOT_REFUSED

SOURCE = """//! Small sums.
#![tactic(auto)]

ghost use Rattle.std.specs.Prelude.{ℕ, ◌+◌, ◌≤◌, ◌≡◌};

/// One more.
pub fn next(n: u8) -> u8
    requires { n ≤ 100 }
    ensures { result ≡ n + 1 }
{
    n + 1
}

/// Two more.
pub fn second(n: u8) -> u8
    requires { n ≤ 90 }
    ensures { result ≡ n + 2 }
{
    next(next(n))
}

/// Three more.
pub fn third(n: u8) -> u8
    requires { n ≤ 80 }
    ensures { result ≡ n + 3 }
{
    next(second(n))
}

/// Five more.
pub fn fifth(n: u8) -> u8
    requires { n ≤ 70 }
    ensures { result ≡ n + 5 }
{
    second(n) + 3
}
"""
WRONG = {"next_is_the_same": ("next", "    n + 1", "    n"), "third_is_the_second": ("third", "next(second(n))", "second(n)")}
HARMLESS = {"second_by_a_sum": ("second", "next(next(n))", "next(n) + 1")}
UNREAD = {"a_name_that_is_none": ("fifth", "second(n) + 3", "second(m) + 3")}
MISTAKEN = {
    "a_text_that_is_missing": ("next", "n + 7", "n"),
    "a_text_that_stands_twice": ("next", "-> u8", "-> u16"),
    "another_function_than_it_names": ("next", "second(n) + 3", "second(n) + 4"),
    "no_change": ("next", "    n + 1", "    n + 1"),
}
# What a check prints, in part: what errors stand where, and what each function came to.
SAID = """./proofs/one/Answers.antt:3:1: error: `returns`: computed as far as they go, the two types differ
./proofs/two/Answers.antt:3:1: error: `returns`: `goal.returns`: module `Rattle.sums.proofs.two.Goals` has no `returns`
./proofs/halves/+fn-both-join+both/Answers.antt:3:1: error: `returns`: the two types differ
  here the record `c` has no field
./proofs/eight/Answers.antt:3:1: error: `returns`: record `Rattle.sums.proofs.eight.View` (nearest: .in_ok-first)
  has no field `in_ok-second`
fn sums::one: not proved
fn sums::two: not proved
fn sums::three: no proof: it calls `sums::one`, which is not proved
fn sums::four: could not tell
fn sums::five: proved
fn sums::fn::six::sort+FnMut::call_mut: no proof: expected answers in ./proofs/fn/six; `search` did not prove `a`, `b`; it calls `sums::one`, which is not proved
fn sums::six: proved
fn sums::halves::both: not proved
fn sums::eight: not proved
only=9 proved=2
"""
SAID_BESIDE = """./proofs/one/Answers.antt:3:1: error: `returns`: the two types differ
./proofs/three/Answers.antt:3:1: error: `returns`: the two types differ
fn sums::one: not proved
fn sums::three: no proof: it calls `sums::one`, which is not proved
only=2 proved=0
"""
VERDICTS = {"one": REFUSED, "two": NAME_ALONE, "three": FOR_CALLEE, "four": UNTOLD, "five": PROVED, "six": REFUSED, "seven": UNTOLD, "halves::both": REFUSED, "eight": NAME_ALONE}


def write_crate(root, edits):
    """Writes a repository of one crate with these wrong bodies."""
    folder = f"{root}/crates/sums"
    os.makedirs(f"{folder}/src")
    os.mkdir(f"{folder}/wrong")
    for path, text in {f"{root}/crates.txt": "sums:\n", f"{folder}/src/lib.rt": SOURCE}.items():
        with open(path, "w", encoding="utf-8") as it:
            it.write(text)
    for name, (function, old, new) in edits.items():
        with open(f"{folder}/wrong/{name}.edit", "w", encoding="utf-8") as it:
            it.write(f"function: {function}\nfile: src/lib.rt\nold: {old}\nnew: {new}\n")
    return folder


def tried(edits):
    """Returns what a run over these edits came to, by their names, and whether the crate then stands in the record."""
    with tempfile.TemporaryDirectory(prefix="wrong-test-") as root:
        write_crate(root, edits)
        os.mkdir(f"{root}/gate")
        record.write(root, {"sums": (1, record.judge(), "old")})
        told = wrong_bodies.run(root, ["sums"], 1, "--record")
        return {it.partition("/")[2].removesuffix(".edit"): kind for it, (kind, _) in told.items()}, "sums" in record.read(root)


def mistakes():
    """Returns why each mistaken edit can't be tried, without a check."""
    found = {}
    with tempfile.TemporaryDirectory(prefix="wrong-test-") as root:
        folder = write_crate(root, MISTAKEN)
        for name in MISTAKEN:
            try:
                read_edit(folder, "sums", f"{folder}/wrong/{name}.edit")
            except Fault as fault:
                found[name] = str(fault)
    return found


def facts_of_answers():
    """Returns what is shown of the empty files of answers."""
    edits = [Edit("sums", "any", function, [], False) for function in ("halves::one", "two", "three", "halves::four", "five")]
    with tempfile.TemporaryDirectory(prefix="wrong-test-") as root:
        for folder, file in {"two": "Answers.antt", "three": "Proof.antt", "halves/+fn-four-join+four": "Answers.antt"}.items():
            os.makedirs(f"{root}/proofs/{folder}")
            with open(f"{root}/proofs/{folder}/{file}", "w", encoding="utf-8") as it:
                it.write("-- As it was.\n")
        put = wrong_bodies.put_answers(root, edits)
        with open(f"{root}/proofs/two/Answers.antt", encoding="utf-8") as it:
            kept = it.read()
        found = {"a function without a proof file gets one": put == [f"proofs/{it}/Answers.antt" for it in ("halves/one", "five")]}
        found["it is there, but for a cycle of functions"] = all(os.path.isfile(f"{root}/{it}") for it in put)
    found["a proof file stays as it is"] = kept == "-- As it was.\n"
    found["an error in such a file is seen"] = wrong_bodies.rejects(SAID, ["proofs/five/Answers.antt", "proofs/one/Answers.antt"])
    found["so is one of the whole file"] = wrong_bodies.rejects("./proofs/six/Answers.antt: error: `sums` has none", ["proofs/six/Answers.antt"])
    found["an error elsewhere is none in it"] = not wrong_bodies.rejects(SAID, ["proofs/five/Answers.antt"])
    return found


def facts_of_record():
    """Returns what a record of three crates leaves to try."""
    crates = [types.SimpleNamespace(name=it, sum=f"sum of {it}", edits=[Edit(it, str(n), f"f{n // 2}", [], False) for n in range(6)]) for it in "abc"]
    whole = {it.name: (6, record.judge(), it.sum) for it in crates}
    others = {it.name: (6, who, it.sum) for it, who in zip(crates, (record.judge(), "another", record.judge()))}
    with contextlib.redirect_stdout(io.StringIO()):
        fresh = wrong_bodies.left_to_try(copy.deepcopy(crates), {}, 7)
        same = wrong_bodies.left_to_try(copy.deepcopy(crates), whole, 7)
        other = wrong_bodies.left_to_try(copy.deepcopy(crates), whole, 8)
        changed_since = {"b": (6, record.judge(), "another"), "c": (5, record.judge(), "sum of c")}
        moved = wrong_bodies.left_to_try(copy.deepcopy(crates), whole | changed_since, 7)
        judged = wrong_bodies.left_to_try(copy.deepcopy(crates), others, 7)
    found = {"without a record all are tried": [len(it.edits) for it in fresh] == [6, 6, 6]}
    found["of recorded crates two are tried, a batch of each"] = [len(it.edits) for it in same] == [3, 3]
    found["the commit chooses which"] = [it.name for it in same] != [it.name for it in other]
    found["a crate that changed is tried whole"] = [(it.name, len(it.edits)) for it in moved] == [("a", 3), ("b", 6), ("c", 6)]
    found["so is one of another judge"] = [(it.name, len(it.edits)) for it in judged] == [("a", 3), ("b", 6), ("c", 3)]
    return found


def facts():
    """Returns what is shown, by its name: whether it holds."""
    refused, kept = tried(WRONG)
    mixed, mixed_kept = tried({**WRONG, **HARMLESS})
    unread, _ = tried({**WRONG, **HARMLESS, **UNREAD, **MISTAKEN})
    output = Output("sums", SAID)
    found = {f"{it} is refused in a batch": mixed[it] == REFUSED for it in WRONG}
    found |= {f"{it} is not refused beside wrong callees": mixed[it] == NOT_REFUSED for it in HARMLESS}
    found |= {f"{it} is refused where another doesn't compile": unread[it] == REFUSED for it in WRONG}
    found |= {f"{it} is not refused alone": unread[it] == NOT_REFUSED for it in HARMLESS}
    found |= {f"{it} fails the run": unread[it] == FAULT for it in (*UNREAD, *MISTAKEN)}
    found |= {f"{it} is told": it in mistakes() for it in MISTAKEN}
    found |= {f"{it} is {kind}": output.verdict(output.keys_of(it))[0] == kind for it, kind in VERDICTS.items()}
    batch = [Edit("sums", f"{it}_is_wrong", it, [], False) for it in ("one", "three")]
    beside = wrong_bodies.judge_batch(batch, Output("sums", SAID_BESIDE))
    found["a batch tells nothing of a function whose callee is unproved"] = [bool(it) for it in beside.values()] == [True, False]
    found["an unedited function that fails disturbs"] = disturbed(output, ["one", "two", "four", "six", "eight"]) == "sums::halves::both: `returns`: the two types differ"
    found["callees disturb nothing"] = disturbed(output, ["one", "two", "four", "six", "halves::both", "eight"]) is None
    found["a check that was cut off tells nothing"] = not Output("sums", SAID.rpartition("only=")[0]).is_told()
    found["a crate whose bodies are all refused is recorded"] = kept and set(refused.values()) == {REFUSED}
    found["a crate with a harmless body is not, though it was"] = not mixed_kept
    return found | facts_of_answers() | facts_of_sums() | facts_of_record()


def main():
    """Runs the test and returns its status."""
    found = facts()
    for it, holds in found.items():
        if not holds:
            print(f"FAILED: {it}")
    failed = list(found.values()).count(False)
    print(f"test of the script: {len(found) - failed} passed, {failed} failed")
    return 1 if failed else 0


if __name__ == "__main__":
    sys.exit(main())
