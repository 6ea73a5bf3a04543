#!/usr/bin/env python3
"""Searches random cores that are passed and the same ones held, from files and from pipes: all answers must be one.

    python3 gate/passes.py [--count N] [--first K] [--keep FOLDER] PROGRAM [PROGRAM ..]

Of an orderly core a search keeps only some words while it is read; a core in another order it holds (layouts.py). Each
process has a core of both kinds, and each is read from a file, and from a pipe in steps of a byte or some. So is its log,
of which a search may hold no more than what is behind the last line so far. Standard output, standard error and exit
status must be the same, except that of a core that is cut off or damaged the first reason may differ by its layout.

Each program has cores of its own: the first N from K on, and the next one the N after these.

That an orderly core is passed is seen by its pipe: the log is read before the core's last byte is there. An unorderly
one is read to its end before there is a log. Core K is always the same one; --keep writes its files. The last line is
`passes: N passed, M failed`: the cores, and how often there must be what the test is about.
"""
import argparse
import fcntl
import os
import random
import struct
import subprocess
import sys
import tempfile
import termios
import time
from collections import Counter
from concurrent.futures import ThreadPoolExecutor
from pathlib import Path

from cases import ENVIRONMENT, difference, finish
from layouts import orderly, unorderly
from random_process import random_process, some

COUNT = 5000
SECONDS = 10
MOST_FAILED = 10  # then the others are not tried
MOST_AT_ONCE = 16  # Linux grants no user many more pipes of this size
PIPE_BYTES, STEPS = 1 << 20, 240  # 256 steps fit
PIECE = 1 << 18  # so many bytes of a log are read from a file at a time
# The commands, and whether they pass orderly cores.
COMMANDS = {"one": True, "holders": True}
FLAGS = ("--skip-freed", "--skip-links", "--skip-slack", "--skip-ends", "--all-memory", "--strict")
VALUES = ("", "", "--workers 1", "--workers 1 --stack 0", "--workers 2 --piece 1", "--displace 0",
          "--workers 1 --displace 8,16")
# What the cores of each command must be, at least one in so many.
LEAST = {"passed": 4, "held": 2, "refused": 40, "leaked": 4, "marked": 4, "warned": 8}
FEW = 100  # so few cores need not be all of this


def options_of(rng, command, asked):
    """Options of a run, each now and then."""
    words = [flag for flag in FLAGS if some(rng, 0.35)] + rng.choice(VALUES).split()
    if some(rng, 0.1):
        words.append("--skip-dead-stack")
    if some(rng, 0.3):
        words.append("--other-heap")
    elif command == "one" and some(rng, 0.4):
        words.append("--check")
    if command == "holders" and some(rng, 0.3):
        words += [rng.choice(("--in", "--of")), f"{asked:#x}"] + ["--block"] * rng.randrange(2)
    if command == "holders" and some(rng, 0.3):
        words += ["--since", "earlier.log"]
    return words


def packets_of(rng, content):
    """The content in steps: rows of up to eight that are alike, of a byte or some, and the last byte by itself."""
    last = len(content) - 1
    cuts = {0, max(last, 0)}
    for begin in [rng.randrange(1, last) for _ in range(STEPS // 8)] if last > 1 else []:
        step = rng.choice((1, 1, 2, 3, 5, 8, 13, 21, 34, 64))
        cuts.update(range(begin, min(begin + step * rng.randrange(9), last), step))
    cuts = sorted(cuts)
    return [content[begin:end] for begin, end in zip(cuts, cuts[1:] + [len(content)]) if begin < end]


class Pipe:
    """A pipe whose reader gets one step a read, with room for all steps."""

    def __init__(self):
        self.reader, self.writer = os.pipe2(os.O_DIRECT | os.O_CLOEXEC)
        fcntl.fcntl(self.writer, fcntl.F_SETPIPE_SZ, PIPE_BYTES)

    def give(self, packets):
        """Writes the steps, as long as there is a reader."""
        try:
            for packet in packets:
                os.write(self.writer, packet)
        except BrokenPipeError:
            pass

    def is_read_by(self, process):
        """Waits until all that was given is read, and tells whether it is."""
        until = time.monotonic() + SECONDS
        while struct.unpack("i", fcntl.ioctl(self.writer, termios.FIONREAD, bytes(4)))[0]:
            if time.monotonic() > until or process.poll() is not None:
                return False
            time.sleep(0.0002)
        return True

    def end(self):
        """Closes the writer's side: what was given is all."""
        os.close(self.writer)


def start(program, folder, words, readers=()):
    """Starts a run in its folder, which gets the readers."""
    return subprocess.Popen(["leak_find", *words], executable=program, cwd=folder, env=ENVIRONMENT, stdin=subprocess.DEVNULL,
                            stdout=subprocess.PIPE, stderr=subprocess.PIPE, pass_fds=readers)


def answer_of(process):
    """Standard output, standard error and exit status of a run; None if it has to be killed."""
    try:
        return (*process.communicate(timeout=SECONDS), process.returncode)  # a report is shorter than a pipe is long
    except subprocess.TimeoutExpired:
        process.kill()
        process.communicate()
        return None


def feed(process, core, log, packets, lines, way):
    """Gives a run the steps of its core and of its log in the order of the way, and tells whether it goes this way."""
    last = packets[-1:] if way == "passed" else []
    core.give(packets[:len(packets) - len(last)])
    goes = way != "held" or core.is_read_by(process)
    log.give(lines)
    goes = goes and (way != "passed" or log.is_read_by(process))
    log.end()
    core.give(last)
    core.end()
    return goes


def by_pipe(program, folder, task, packets, way):
    """The answer of a run that gets core and log by pipes, and whether it goes the way."""
    core, log = Pipe(), Pipe()
    readers = (core.reader, log.reader)
    words = [task.command, *(f"/dev/fd/{it}" for it in readers), *task.options]
    process = start(program, folder, words, readers)
    for it in readers:
        os.close(it)
    goes = feed(process, core, log, packets, packets_of(task.rng, task.log), way)
    return answer_of(process), goes


def by_file(program, folder, task, image):
    """The answer of a run over files."""
    return answer_of(start(program, folder, [task.command, image, "trace.log", *task.options]))


class Task:
    """The random task with the number: a command, its options, a log, and a core in two layouts."""

    def __init__(self, number):
        rng = self.rng = random.Random(number)
        self.command = sorted(COMMANDS)[number % len(COMMANDS)]
        process = random_process(rng)
        self.options, self.log = options_of(rng, self.command, process.asked), process.log.encode()
        damage = rng.choices((whole, cut, changed), (20, 2, 1))[0]
        self.images, self.ways = {}, {}
        is_plain = process.is_sound and damage is whole
        for name, layout in (("orderly", orderly), ("unorderly", unorderly)):
            image, has_memory = layout(rng, process)
            self.images[name] = damage(rng, image)
            passes = name == "orderly" and COMMANDS[self.command] and "--skip-dead-stack" not in self.options
            is_seen = is_plain and has_memory and process.log
            self.ways[name] = ("passed" if passes else "held") if is_seen else ""
        self.is_same = damage is whole and process.notes_are_sound
        if some(rng, 0.05):
            self.log = behind_remark(rng, self.log)

    def write(self, folder):
        """Writes the files of the task."""
        lines = self.log.rpartition(b"\n")[0].splitlines(True)
        earlier = b"".join(lines[:len(lines) // 2])
        for name, content in {"trace.log": self.log, "earlier.log": earlier, **self.images}.items():
            Path(folder, name).write_bytes(content)


def behind_remark(rng, log):
    """The log behind a remark that is so long that a piece of the file ends somewhere in the log."""
    return b"=" + b"x" * (PIECE - 2 - rng.randrange(len(log) + 1)) + b"\n" + log


def whole(_rng, image):
    """The core as it is."""
    return image


def cut(rng, image):
    """A core without its last bytes."""
    return image[:rng.randrange(len(image))]


def changed(rng, image):
    """A core with other bytes, where mostly headers and notes are."""
    content = bytearray(image)
    for _ in range(rng.randrange(1, 4)):
        content[rng.randrange(min(len(content), 600))] = rng.choice((0, 1, 255, rng.randrange(256)))
    return bytes(content)


def answers_of(program, folder, task):
    """The answers by layout and source, and the ways that runs were to go and did not: the task has these no more."""
    answers, others = {}, []
    for name, image in task.images.items():
        answers[name, "file"] = by_file(program, folder, task, name)
        packets = packets_of(task.rng, image)
        answers[name, "pipe"], goes = by_pipe(program, folder, task, packets, task.ways[name])
        others += [] if goes else [task.ways.pop(name)]
    return answers, others


def unlike(task, answers):
    """What differs between answers that must be the same, as lines."""
    found = []
    for (layout, source), answer in answers.items():
        wanted = answers["orderly" if task.is_same else layout, "file"]
        if answer is None or wanted is None:
            found.append(f"  {layout}, {source}: did not end within {SECONDS} seconds")
        elif answer != wanted:
            found += [f"  {layout}, {source}: status: wanted {wanted[2]}, got {answer[2]}"]
            found += difference("stdout", wanted[0], answer[0]) + difference("stderr", wanted[1], answer[1])
    return found


def kinds_of(task, answers):
    """What the task shows: the ways that were seen, and what the first answer is."""
    output, errors, status = answers["orderly", "file"] or (b"", b"", 0)
    lines = [line.split() for line in output.splitlines()]
    shown = {way for way in task.ways.values() if way}
    shown |= {"refused"} if status == 2 else set()
    shown |= {"warned"} if b": warning: " in errors else set()
    return shown | {it[0].decode() for it in lines if it[0] in (b"leaked", b"marked") and it[1:] and it[1] != b"0"}


def run_task(program, number, keep=None):
    """Runs the task with the number. Gives its command, what it shows, and what is wrong, as lines."""
    task = Task(number)
    with tempfile.TemporaryDirectory(prefix="passes-") as folder:
        task.write(keep or folder)
        answers, others = answers_of(program, keep or folder, task)
    found = [f"  a core was not {way}" for way in others] + unlike(task, answers)
    title = f"FAILED: core {number}, by {program}\n  words: {task.command} CORE LOG {' '.join(task.options)}"
    return task.command, kinds_of(task, answers), [title, *found] if found else []


def lacks(program, seen):
    """What too few of the cores of a command are, as lines."""
    found = []
    for command, passes in COMMANDS.items():
        for kind, part in LEAST.items():
            of, count = seen[command, "cores"], seen[command, kind]
            if of >= FEW and part * count < of and (passes or kind != "passed"):
                found.append(f"FAILED: of {of} cores of {command} {count} are {kind}, and not one in {part}, by {program}")
    return found


def run_all(program, numbers, keep=None):
    """Runs the tasks by a program, and prints what is wrong. Gives the numbers of passed and failed ones."""
    if not os.access(program, os.X_OK):
        print(f"FAILED: {program} is missing")
        return 0, 1
    seen, failed = Counter(), 0
    with ThreadPoolExecutor(min(os.cpu_count(), MOST_AT_ONCE)) as pool:
        for command, kinds, found in pool.map(lambda it: run_task(program, it, keep), numbers):
            seen.update((command, kind) for kind in ("cores", *kinds))
            failed += bool(found)
            print(*found, sep="\n", end="\n" if found else "")
            if failed == MOST_FAILED:
                pool.shutdown(cancel_futures=True)
                break
    few = lacks(program, seen)
    print(*few, sep="\n", end="\n" if few else "")
    for command in COMMANDS:
        counts = ", ".join(f"{seen[command, kind]} {kind}" for kind in ("cores", *LEAST))
        print(f"{command}, by {program}: {counts}")
    return sum(seen[it, "cores"] for it in COMMANDS) - failed, failed + len(few)


def main(words):
    """Runs the tasks, as many others by each program."""
    parser = argparse.ArgumentParser()
    parser.add_argument("--count", type=int, default=COUNT)
    parser.add_argument("--first", type=int, default=0)
    parser.add_argument("--keep")
    parser.add_argument("programs", nargs="+", metavar="PROGRAM")
    given = parser.parse_args(words)
    firsts = [given.first + given.count * number for number in range(len(given.programs))]
    results = [run_all(os.path.abspath(it), range(first, first + given.count), given.keep)
               for it, first in zip(given.programs, firsts)]
    return finish("passes", *map(sum, zip(*results)))


if __name__ == "__main__":
    sys.exit(main(sys.argv[1:]))
