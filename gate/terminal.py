#!/usr/bin/env python3
"""A question who holds the memory, asked on a terminal: standard error shows how far a run of over two seconds has come.

    python3 gate/terminal.py PROGRAM [PROGRAM ..]

A run is made long by a log that comes late, through a pipe with a name. What it shows is wiped out at the end. A pipe and a short run
get nothing of it, and standard output is the same. The last line is `terminal: N passed, M failed`; the status is 1 where something
failed.
"""
import os
import pty
import subprocess
import sys
import tempfile
import threading
import time
import tty

from cores import core, word

LATE = 2.3  # seconds until the log comes
SECONDS = 20
TEXTS = 1300
SHOWN = (128, 256, 384, 512, 640, 768, 896, 1024, 1152, 1280, 1300)  # two batches of 64 callers at once, and then what is left
ENVIRONMENT = {"PATH": "/usr/bin:/bin", "LANG": "C.UTF-8"}


def wanted():
    """What the terminal gets: each line over the one before, and then blanks."""
    return "".join(f"\rleak_find: {done:,} of {TEXTS:,} callers" for done in SHOWN) + f"\r{' ' * 50}\r"


def log():
    """This many blocks of a byte, each of a caller of its own."""
    return "".join(f"@ ./a.out:[0x{number:x}] + 0x{0x10100 + 2 * number:x} 0x1\n" for number in range(TEXTS)).encode()


def send(path):
    """Writes the log to the pipe, late."""
    with open(path, "wb") as pipe:
        time.sleep(LATE)
        pipe.write(log())


def all_of(place):
    """What a terminal or a pipe has, up to its end."""
    found = b""
    try:
        while part := os.read(place, 4096):
            found += part
    except OSError:  # the other side of a terminal is closed
        pass
    return found.decode()


def answer(program, late, terminal):
    """The standard output of a run, what standard error got, and the exit status."""
    with tempfile.TemporaryDirectory(prefix="terminal-") as folder:
        with open(f"{folder}/core.k", "wb") as file:
            file.write(core(word(0x10008, 0x10100)))
        if late:
            os.mkfifo(f"{folder}/trace.log")
            threading.Thread(target=send, args=(f"{folder}/trace.log",), daemon=True).start()
        else:
            with open(f"{folder}/trace.log", "wb") as file:
                file.write(log())
        ours, theirs = pty.openpty() if terminal else os.pipe()
        if terminal:
            tty.setraw(theirs)
        process = subprocess.Popen(
            ["leak_find", "holders", "core.k", "trace.log", "--other-heap"], executable=program, cwd=folder, env=ENVIRONMENT,
            stdin=subprocess.DEVNULL, stdout=subprocess.PIPE, stderr=theirs)
        os.close(theirs)
        told = all_of(ours)
        os.close(ours)
        report, _ = process.communicate(timeout=SECONDS)
    return report, told, process.returncode


def runs(program):
    """Each run's name, and whether it is as it should be."""
    report, told, status = answer(program, late=False, terminal=False)
    yield "a short run", (told, status) == ("", 0) and b"\nholder 1 1 1 1 0 0x10100 ./a.out:[0x0]\n" in report
    yield "a short run on a terminal", answer(program, late=False, terminal=True) == (report, "", 0)
    yield "a long run", answer(program, late=True, terminal=False) == (report, "", 0)
    yield "a long run on a terminal", answer(program, late=True, terminal=True) == (report, wanted(), 0)


def main(programs):
    """Makes the runs of each program."""
    passed = failed = 0
    for program in programs:
        for name, is_right in runs(os.path.abspath(program)):
            passed, failed = (passed + 1, failed) if is_right else (passed, failed + 1)
            if not is_right:
                print(f"FAILED: {name}, by {program}")
    print(f"terminal: {passed} passed, {failed} failed")
    return 1 if failed else 0


if __name__ == "__main__":
    sys.exit(main(sys.argv[1:]))
