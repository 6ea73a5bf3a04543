#!/usr/bin/env python3
"""Tries the wrong bodies of crates/NAME/wrong/: the prover must refuse each, for what it means.

    wrong_bodies.py [--lanes N] [--recorded | --record] [CRATE..]

It stands on the libraries that `rt ci` left in crates/*/out. At most one wrong body a function goes into a batch, and
one check tries a batch; each body is judged by its own function. What a batch doesn't tell is tried alone. Each check
runs on a copy of its crate, so only --record changes the repository. The last line is 'wrong bodies: N passed, M failed'.

With --record, each crate all of whose wrong bodies are refused goes into gate/refused.txt. With --recorded, a crate that is
there as it is now is not tried again, but for one batch of each of two crates, which the commit's hash chooses.
"""
import os
import re
import shutil
import signal
import subprocess
import sys
import tempfile
import threading
import time
from concurrent.futures import ThreadPoolExecutor

import judging
import record
from edits import Fault, batch_of, read_edit, texts_with
from judging import REFUSED, Output

# Their checks take longest, though they are not the largest.
DEAREST = ("leak_search", "leak_request", "leak_pool")
# Seconds that one check may take, and bytes of memory that a lane wants.
LONGEST, EACH = 2400, 4_000_000_000
NOT_REFUSED, FAULT = "NOT REFUSED", "FAULT"


def kit():
    """Returns the folder of the Rattle kit."""
    return os.path.dirname(subprocess.run(["rt", "doc"], capture_output=True, text=True, check=True).stdout.strip())


def libraries_of(root):
    """Returns the libraries that each crate stands on, as crates.txt lists them."""
    found = {}
    with open(f"{root}/crates.txt", encoding="utf-8") as it:
        for line in it:
            name, colon, rest = line.partition("#")[0].partition(":")
            if colon:
                found[name.split()[0]] = rest.split()
    return found


def below(libraries, crate):
    """Returns the crates of the repository that a crate stands on, directly or not."""
    found = {}
    for it in libraries[crate]:
        if it in libraries:
            found |= dict.fromkeys([it, *below(libraries, it)])
    return list(found)


def command(root, crate, libraries, rattle, kept):
    """Returns the words of a check of the crate over what `rt ci` built."""
    rlib = lambda it: f"{root}/crates/{it}/out/rlib/{it}.rlib"
    words = [f"{rattle}/bin/rattle", "check", "--crate-name", crate, "src/lib.rt", "--jobs", "1"]
    for it in ["std", *libraries[crate]]:
        words += ["--extern", f"{it}={rlib(it) if it in libraries else f'{rattle}/rlibs/{it}.rlib'}"]
    words += ["-L", f"dependency={rattle}/rlibs"]
    for it in below(libraries, crate):
        if not os.path.isfile(f"{rlib(it)}/format"):
            raise Fault(f"{it} is not built: run rt ci first")
        words += ["-L", f"dependency={os.path.dirname(rlib(it))}"]
    words += ["--antt-project", f"{rattle}/rattle/logic/antt-project.json", "--logic-built", f"{rattle}/logic_built"]
    return [*words, "--incremental", kept]


def put_answers(copy, edits):
    """Gives each edited function that has no proof file an empty one of answers, and returns the files' paths in the crate. To say
    what such a file could begin with, rattle runs the prover once more."""
    put = []
    for edit in edits:
        folder = f"proofs/{edit.function.replace('::', '/')}"
        above, _, name = folder.rpartition("/")
        beside = os.listdir(f"{copy}/{above}") if os.path.isdir(f"{copy}/{above}") else []
        # (the proof of a cycle of functions stands in a folder with all their names)
        is_in_cycle = any(name in it.split("+")[1:] for it in beside)
        if not is_in_cycle and not any(os.path.exists(f"{copy}/{folder}/{it}.antt") for it in ("Answers", "Proof")):
            os.makedirs(f"{copy}/{folder}", exist_ok=True)
            put.append(f"{folder}/Answers.antt")
            with open(f"{copy}/{put[-1]}", "w", encoding="utf-8") as it:
                it.write("-- None.\n")
    return put


def rejects(text, files):
    """Returns whether an error is told of one of the files: it says nothing of a body, as where a cycle of functions has one proof."""
    return any(re.search(rf"^(?:\./)?{re.escape(it)}(?::\d+:\d+)?: error: ", text, re.M) for it in files)


class Crate:
    """A crate with its wrong bodies, and what its checks keep from one to the next."""

    def __init__(self, root, name, libraries, rattle, room):
        self.name, self.folder, self.kept = name, f"{root}/crates/{name}", f"{room}/{name}"
        self.command = command(root, name, libraries, rattle, self.kept)
        self.sum = record.sum_of(root, name, libraries, below(libraries, name))
        self.edits, self.faults = [], []
        for file in sorted(os.listdir(f"{self.folder}/wrong")):
            try:
                if not file.endswith(".edit"):
                    raise Fault("its name doesn't end in .edit")
                self.edits.append(read_edit(self.folder, name, f"{self.folder}/wrong/{file}"))
            except (Fault, OSError, ValueError) as fault:
                self.faults.append((f"{name}/{file}", str(fault)))
        os.mkdir(self.kept)

    def weight(self):
        """Returns by what the longest work comes first: the dearest, and then the bytes of a crate's texts."""
        walked = [(at, files) for part in record.PARTS for at, _, files in os.walk(f"{self.folder}/{part}")]
        return self.name in DEAREST, sum(os.path.getsize(f"{at}/{it}") for at, files in walked for it in files)

    def check(self, edits):
        """Returns what a check of a copy of the crate with these edits says."""
        with tempfile.TemporaryDirectory(prefix="wrong-") as copy:
            for part in record.PARTS:
                if os.path.isdir(f"{self.folder}/{part}"):
                    shutil.copytree(f"{self.folder}/{part}", f"{copy}/{part}")
            for path, text in texts_with(self.folder, edits).items():
                with open(f"{copy}/{path}", "w", encoding="utf-8") as it:
                    it.write(text)
            put = put_answers(copy, edits)
            said = self.said(copy, edits)
            if rejects(said, put):
                for it in put:
                    os.remove(f"{copy}/{it}")
                said = self.said(copy, edits)
        return Output(self.name, said)

    def said(self, copy, edits):
        """Returns what rattle prints of the edited functions of a copy of the crate."""
        words = ["timeout", str(LONGEST), *self.command, *(it for edit in edits for it in ("--only", edit.function))]
        for _ in range(2):
            ran = subprocess.run(words, cwd=copy, stdin=subprocess.DEVNULL, stdout=subprocess.PIPE, stderr=subprocess.STDOUT, errors="replace")
            # (killed, most likely for memory: once more)
            if ran.returncode not in (-signal.SIGKILL, 128 + signal.SIGKILL):
                break
        return ran.stdout


def judge_alone(crate, edit, output):
    """Returns what became of an edit that was tried alone, and why."""
    if not output.is_told():
        return FAULT, f"no answer, as from a text that doesn't compile: {first_error(output.text)}"
    kind, why = output.verdict(output.keys_of(edit.function))
    if kind != REFUSED and edit.is_of_definition() and output.lines.get(f"{crate.name}::{edit.function}", "proved") != "proved":
        # (the proof of a law stands in lemmas, which no function has as its own)
        real = [it for it in output.elsewhere if not judging.MISSES_A_NAME.search(it)]
        kind, why = (REFUSED, real[0]) if real else (kind, why)
    if kind != REFUSED:
        other = judging.disturbed(output, [edit.function])
        return NOT_REFUSED, f"{kind}: {why}" + (f" (but {other})" if other else "")
    return REFUSED, why


def first_error(text):
    """Returns the first line that tells an error, or the last line."""
    lines = text.rstrip("\n").split("\n")
    return next((it for it in lines if "error" in it), lines[-1])[:200]


def judge_batch(edits, output):
    """Returns what became of each edit of a batch, as None where the batch doesn't tell."""
    if not output.is_told() or judging.disturbed(output, [it.function for it in edits]):
        return {it.name: None for it in edits}
    told = {}
    for edit in edits:
        keys = output.keys_of(edit.function)
        kind, why = output.verdict(keys)
        callees = {callee for key in keys for callee in judging.callees_of(edit.crate, output.lines[key])}
        # (the goals of a function that waits for a callee were not tried)
        told[edit.name] = (kind, why) if kind == REFUSED and not callees else None
        edit.avoid |= callees
    return told


def try_crate(crate, tell):
    """Tries all edits of a crate, batch by batch, and tells what became of each."""
    for name, fault in crate.faults:
        tell(name, FAULT, fault)
    left, batches, begun = list(crate.edits), 0, time.monotonic()
    while left:
        batch = batch_of(left)
        output, batches = crate.check(batch), batches + 1
        told = judge_batch(batch, output) if len(batch) > 1 else {batch[0].name: judge_alone(crate, batch[0], output)}
        for edit in batch:
            if told[edit.name]:
                tell(str(edit), *told[edit.name])
                left.remove(edit)
            elif not edit.avoid & {it.function for it in batch}:
                edit.alone = True
    print(f"-- {crate.name}: {len(crate.edits)} wrong bodies in {batches} checks, {time.monotonic() - begun:.0f} s", flush=True)
    shutil.rmtree(crate.kept, ignore_errors=True)


def lanes():
    """Returns how many crates go side by side: one a processor, as memory holds."""
    with open("/proc/meminfo", encoding="utf-8") as it:
        free = next(int(line.split()[1]) * 1024 for line in it if line.startswith("MemAvailable"))
    return max(1, min(len(os.sched_getaffinity(0)), free // EACH))


def left_to_try(crates, known, commit):
    """Returns the crates that the record doesn't know as they are, and two others, which the commit chooses, with one batch each."""
    told = [it for it in crates if record.speaks_of(known.get(it.name), len(it.edits), it.sum)]
    for it in told:
        print(f"-- {it.name}: {len(it.edits)} wrong bodies were refused before, by {record.FILE}", flush=True)
    chosen = []
    for _ in range(min(2, len(told))):
        commit, at = divmod(commit, len(told))
        chosen.append(told.pop(at))
    for it in chosen:
        commit, at = divmod(commit, len(it.edits))
        it.edits = batch_of(it.edits[at:] + it.edits[:at])
    return [it for it in crates if it not in told]


def recorded(root, crates, found):
    """Writes into the record which of the crates have all their wrong bodies refused, as found."""
    known = record.read(root)
    for it in crates:
        known.pop(it.name, None)
        if it.edits and not it.faults and all(found.get(str(edit), (FAULT,))[0] == REFUSED for edit in it.edits):
            known[it.name] = (len(it.edits), record.judge(), it.sum)
    record.write(root, {name: row for name, row in known.items() if os.path.isdir(f"{root}/crates/{name}/wrong")})


def run(root, names, number, mode=None):
    """Tries the crates' wrong bodies side by side and returns what became of each, by crate and name."""
    found, printing, rattle, libraries = {}, threading.Lock(), kit(), libraries_of(root)

    def tell(name, kind, why):
        with printing:
            found[name] = kind, why
            print(f"{name}: {kind}: {why[:160]}", flush=True)

    def guarded(crate):
        try:
            try_crate(crate, tell)
        except Exception as fault:  # (a fault of this script is no refusal, and fails the run)
            tell(crate.name, FAULT, repr(fault))
        if mode == "--record":
            # (at once, so that a run that is ended loses no crate)
            with printing:
                recorded(root, [crate], found)

    with tempfile.TemporaryDirectory(prefix="wrong-kept-") as room, ThreadPoolExecutor(number) as pool:
        crates = []
        for name in names:
            try:
                crates.append(Crate(root, name, libraries, rattle, room))
            except (Fault, OSError, KeyError) as fault:
                tell(name, FAULT, repr(fault))
        if mode == "--recorded":
            crates = left_to_try(crates, record.read(root), record.commit_of(root))
        list(pool.map(guarded, sorted(crates, key=Crate.weight, reverse=True)))
    return found


def main(words):
    """Runs the script and returns its status."""
    root = os.path.dirname(os.path.dirname(os.path.abspath(__file__)))
    number, mode = lanes(), None
    if words[:1] == ["--lanes"]:
        number, words = int(words[1]), words[2:]
    if words[:1] in (["--recorded"], ["--record"]):
        mode, words = words[0], words[1:]
    names = words or sorted(it for it in os.listdir(f"{root}/crates") if os.path.isdir(f"{root}/crates/{it}/wrong"))
    kinds = [kind for kind, _ in run(root, names, number, mode).values()]
    passed = kinds.count(REFUSED)
    print(f"wrong bodies: {passed} passed, {len(kinds) - passed} failed")
    return 1 if passed < len(kinds) or not passed else 0


if __name__ == "__main__":
    sys.exit(main(sys.argv[1:]))
