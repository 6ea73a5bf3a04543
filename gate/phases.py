"""phases.py [PART [WORD..]]: passes everything, phase by phase, or one part alone, and counts it all together.

A phase is a row of shell commands. It follows the one before it, or begins a lane of its own; lanes go side by side. A
command that counts must end its standard output with `NAME: N passed, M failed`, with the NAME that is its own; of the
others only the status counts, and only if it is not 0. A phase has a time limit, so that a hang says where it is. The
words after PART go to the last command of the part.

The last line is `N passed, M failed`, the sum. The status is 0 if nothing failed, 1 if something did, and 2 if PART
names no phase.
"""
import glob
import os
import re
import shlex
import signal
import subprocess
import sys
import threading
import time
from concurrent.futures import ThreadPoolExecutor
from typing import NamedTuple

ROOT = os.path.dirname(os.path.dirname(os.path.abspath(__file__)))
OUT = "crates/leak_cli/out"
# In CI the wrong bodies of a crate that is as it was when all of them were refused are not tried again.
RECORDED = " --recorded" if os.environ.get("CI") == "true" else ""
# Linux shares processors among sessions first, and by nice only within one.
GIVE_WAY = "(echo 19 > /proc/self/autogroup) 2> /dev/null; nice -n 19"


class Step(NamedTuple):
    """A shell command, and the words that come before its count; None if it counts nothing, and must end with status 0."""
    command: str
    count: str | None = None


class Phase(NamedTuple):
    """A part: its time limit in minutes, the files that it depends on as patterns, its steps, whether it begins a lane, and
    the line of the first lane that it waits for, or for that lane's end."""
    name: str
    minutes: float
    stands_on: tuple
    steps: tuple
    beside: bool = False
    after: bytes = b""


# What rt ci says once the program is proved and built, while tests are left to prove; and once the libraries are built on which
# wrong bodies stand.
BUILT = rb"rt: leak_cli (proved|is kept)\b"
LIBRARIES_BUILT = rb"rt: leak_find (proved|is kept)\b"
# From here on one crate waits for another, leak_pool first, and processors are free; up to here proofs take all there are.
CHAIN_BEGUN = rb"rt: leak_scan (proved|is kept)\b"
# Proofs and wrong bodies give way, for what runs programs goes by the clock.
PHASES = (
    Phase("proofs", 110, (), (Step(f"{GIVE_WAY} rt ci", ""),)),
    Phase("cases", 15, (f"{OUT}/leak_cli", f"{OUT}/leak_cli.by-rattle"), (
        Step("python3 gate/phases_test.py"),
        Step("python3 gate/again_test.py"),
        Step("python3 gate/cases_test.py"),
        Step("python3 gate/passes_test.py"),
        Step("python3 setup/options_test.py"),
        Step(f"python3 setup/options.py --check {OUT}/leak_cli"),
        Step(f"python3 gate/terminal.py {OUT}/leak_cli {OUT}/leak_cli.by-rattle", "terminal: "),
        Step(f"python3 gate/threads.py {OUT}/leak_cli {OUT}/leak_cli.by-rattle", "threads: "),
        Step(f"python3 gate/memory.py {OUT}/leak_cli {OUT}/leak_cli.by-rattle", "memory: "),
        Step(f"python3 gate/passes.py {OUT}/leak_cli {OUT}/leak_cli.by-rattle", "passes: "),
        Step(f"python3 gate/cases.py {OUT}/leak_cli {OUT}/leak_cli.by-rattle", "cases: ")), beside=True, after=BUILT),
    Phase("examples", 15, (f"{OUT}/leak_cli",), (
        Step("make -j $(nproc) -C capture"),
        Step(f"LEAK_FIND=$PWD/{OUT}/leak_cli python3 gate/again.py capture/tests/run.sh known report", "capture: "),
        Step(f"examples/run.sh $PWD/{OUT}/leak_cli", "examples: "))),
    Phase("capture", 45, (), (
        Step("make -j $(nproc) -C capture"),
        Step("gate/capture.sh", "capture: ")), beside=True, after=CHAIN_BEGUN),
    # It follows capture's tests, so that these have the processors.
    Phase("wrong", 150, ("crates/*/out/rlib",), (
        Step(f"{GIVE_WAY} python3 gate/wrong_bodies.py{RECORDED}", "wrong bodies: "),), after=LIBRARIES_BUILT),
    Phase("script", 20, (), (Step(f"{GIVE_WAY} python3 gate/wrong_bodies_test.py", "test of the script: "),), beside=True),
)

# The lines by which commands tell what failed. They are said once more at the end, since of a long run often only that is kept.
FAILURE = re.compile(rb"(FAIL|FAILED|ERROR)\b|\S+: (NOT REFUSED|FAULT): |rt: .*\bfailed\b")
MOST_FAILURES = 50

printing = threading.Lock()
running = set()
failures = []
ended = threading.Event()
# By the lines that phases wait for: whether each was printed, or the first lane has ended.
awaited = {}


class Result(NamedTuple):
    """What a phase or a step passed and failed, and why it failed if the count does not say so."""
    passed: int = 0
    failed: int = 0
    faults: tuple = ()

    def __add__(self, other):
        return Result(self.passed + other.passed, self.failed + other.failed, self.faults + other.faults)

    def __str__(self):
        return "; ".join((f"{self.passed} passed, {self.failed} failed", *self.faults))


def fault(text):
    """One failure that no count tells."""
    return Result(0, 1, (text,))


def say(text):
    """Writes a line at once, so that it is where it belongs among those of the commands."""
    with printing:
        print(text, flush=True)


def copy_lines(source, label, lines):
    """Copies what a command writes, behind the label, and leaves its last line that is not blank in `lines`."""
    with source:
        for line in source:
            for wanted in (it for it in awaited if re.match(it, line)):
                awaited[wanted].set()
            with printing:
                sys.stdout.buffer.write(label.encode() + line)
                sys.stdout.buffer.flush()
                if FAILURE.match(line) and len(failures) < MOST_FAILURES:
                    failures.append(label + line.decode(errors="replace").rstrip())
            if line.strip():
                lines[:] = [line.decode(errors="replace").rstrip()]


def stop_group(process):
    """Ends the process and what it left running in its group: asks, gives the process ten seconds, and kills."""
    for number in (signal.SIGTERM, signal.SIGKILL):
        try:
            os.killpg(process.pid, number)
            process.wait(timeout=10)
        except ProcessLookupError:
            return
        except subprocess.TimeoutExpired:
            pass


def run(command, seconds, label=""):
    """Runs a shell command in the top folder. Gives its status, or None if the time was up, and its last line."""
    process = subprocess.Popen(["sh", "-c", command], cwd=ROOT, stdin=subprocess.DEVNULL, stdout=subprocess.PIPE,
                               start_new_session=True)
    running.add(process)
    if ended.is_set():
        stop_group(process)
    lines = []
    reader = threading.Thread(target=copy_lines, args=(process.stdout, label, lines), daemon=True)
    reader.start()
    try:
        status = process.wait(timeout=seconds)
    except subprocess.TimeoutExpired:
        status = None
    finally:
        running.discard(process)
        stop_group(process)
    reader.join(timeout=10)  # a program in another session may hold the pipe forever
    return status, "".join(lines)


def judge(step, status, last):
    """The result of a step that ended with the status and the last line."""
    if step.count is None:
        return Result() if status == 0 else fault(f"'{step.command}' ended with status {status}")
    count = re.fullmatch(re.escape(step.count) + r"(\d+) passed, (\d+) failed", last)
    if not count:
        return fault(f"'{step.command}' did not end with a count, and with status {status}")
    result = Result(int(count[1]), int(count[2]))
    if status != 0 and result.failed == 0:
        return result + fault(f"'{step.command}' ended with status {status}")
    if result.passed + result.failed == 0:
        return fault(f"'{step.command}' tried nothing")
    return result


def pass_phase(phase, words, label):
    """Runs the steps of a phase one after the other, also after one that failed, until its time is up."""
    lacking = [it for it in phase.stands_on if not glob.glob(os.path.join(ROOT, it))]
    if lacking:
        return fault(f"left out: there is no {' and no '.join(lacking)}")
    until, result = time.monotonic() + 60 * phase.minutes, Result()
    for step in phase.steps:
        command = shlex.join(words) if step is phase.steps[-1] else ""
        status, last = run(f"{step.command} {command}".rstrip(), max(until - time.monotonic(), 0), label)
        if ended.is_set():
            return result + fault("ended")
        if status is None:
            return result + fault(f"'{step.command}' was ended: the phase has {phase.minutes:g} minutes")
        result += judge(step, status, last)
    return result


def pass_timed(phase, words, label):
    """Passes a phase, and says so. Gives its row of the table: name, minutes and result."""
    say(f"== {phase.name}: at most {phase.minutes:g} minutes")
    begin = time.monotonic()
    result = pass_phase(phase, words, label)
    minutes = f"{(time.monotonic() - begin) / 60:.1f}"
    say(f"== {phase.name}: {minutes} minutes: {result}")
    return phase.name, minutes, result


def stop_all():
    """Ends all commands, so that no step follows."""
    ended.set()
    end_waiting()
    for process in list(running):
        stop_group(process)


def end_waiting():
    """Lets the phases begin that wait for a line: no more are to come."""
    for it in awaited.values():
        it.set()


def pass_lane(lane, words, is_one_of_many):
    """Passes phases one after the other, each line with the name of its phase before it if there are other lanes."""
    rows = []
    for phase in lane:
        if phase.after in awaited:
            awaited[phase.after].wait()
        rows.append(pass_timed(phase, words, f"{phase.name}: " if is_one_of_many else ""))
    return rows


def lanes_of(phases):
    """The phases in lists of those that follow each other."""
    lanes = []
    for phase in phases:
        if phase.beside or not lanes:
            lanes.append([phase])
        else:
            lanes[-1].append(phase)
    return lanes


def pass_lanes(lanes, words):
    """Passes lanes side by side. Gives the rows of their phases in order."""
    awaited.clear()
    awaited.update((phase.after, threading.Event()) for lane in lanes[1:] for phase in lane if phase.after)
    with ThreadPoolExecutor(len(lanes)) as pool:
        try:
            passed = [pool.submit(pass_lane, lane, words, len(lanes) > 1) for lane in lanes]
            passed[0].add_done_callback(lambda _: end_waiting())
            return [row for it in passed for row in it.result()]
        except BaseException:
            stop_all()
            raise


def pass_all(phases, words=()):
    """Passes the phases in order, prints what failed, a table and the sum of all, and gives the exit status."""
    failures.clear()
    rows = pass_lanes(lanes_of(phases), words)
    whole = sum((result for _, _, result in rows), Result())
    for line in ("", *failures, *([""] if failures else []), f"{'phase':<10}{'minutes':>7}  result"):
        say(line)
    for name, minutes, result in rows:
        say(f"{name:<10}{minutes:>7}  {result}")
    say(f"{whole.passed} passed, {whole.failed} failed")
    return 1 if whole.failed else 0


def main(part="", *words):
    """Passes all phases, or the one that is named with its words."""
    for number in (signal.SIGTERM, signal.SIGHUP):
        signal.signal(number, lambda *_: sys.exit(1))
    phases = [phase for phase in PHASES if part in ("", phase.name)]
    if not phases:
        say(f"check: no part {part}: there are {', '.join(phase.name for phase in PHASES)}")
        say("0 passed, 1 failed")
        return 2
    return pass_all(phases, words)


if __name__ == "__main__":
    sys.exit(main(*sys.argv[1:]))
