#!/usr/bin/env python3
"""How much memory a search of a log with a history takes: by the blocks that are live at a time, not by the log's lines.

    python3 gate/memory.py PROGRAM [PROGRAM ..]

No contract covers memory. A run is traced (ptrace(2)), so that its peak can be read when it ends. The last line is
`memory: N passed, M failed`; the status is 1 where something failed.
"""
import os
import re
import signal
import sys
import tempfile

from cores import core
from threads import END_WITH_US, GO_ON, SET_OPTIONS, begin, end, is_late, passed_on, trace

SECONDS = 60
# Of sys/ptrace.h, for Linux.
TELL_OF_THE_END, ENDS = 0x40, 6
ALLOCATIONS, LIVE = 400_000, 50
# The allocations alone would take 16 MiB.
MOST_KIB = 12 * 1024
REPORT = b"blocks 50 bytes 1600\n"


def log():
    """A log in which so many blocks are live at a time, and the oldest is freed before each further allocation."""
    starts = [0x20000 + 0x40 * slot for slot in range(LIVE)]
    first = [f"@ ./a.out:[0x401136] + {start:#x} 0x20\n" for start in starts]
    turn = "".join(f"@ ./a.out:[0x401190] - {start:#x}\n{line}" for start, line in zip(starts, first))
    return "".join(first) + turn * (ALLOCATIONS // LIVE - 1)


def peak(process):
    """Lets the run go on to its end. Gives the most memory that was resident, in KiB, and its exit status."""
    most = None
    os.waitpid(process, 0)
    trace(SET_OPTIONS, process, TELL_OF_THE_END | END_WITH_US)
    trace(GO_ON, process)
    while True:
        _, status = os.waitpid(process, 0)
        if not os.WIFSTOPPED(status):
            return most, os.waitstatus_to_exitcode(status)
        if status >> 16 == ENDS:
            with open(f"/proc/{process}/status", encoding="utf-8") as it:
                most = int(re.search(r"VmHWM:\s+(\d+)", it.read())[1])
        trace(GO_ON, process, passed_on(status))


def fault_of(program, line):
    """What is wrong with a run over that log, or None."""
    with tempfile.TemporaryDirectory() as folder:
        for name, content in (("core.k", core()), ("trace.log", log().encode())):
            with open(f"{folder}/{name}", "wb") as it:
                it.write(content)
        signal.signal(signal.SIGALRM, is_late)
        signal.alarm(SECONDS)
        process = begin(program, line, folder)
        try:
            most, status = peak(process)
        except TimeoutError as late:
            return str(late)
        finally:
            signal.alarm(0)
            end(process)
        with open(f"{folder}/stdout", "rb") as it:
            is_told = it.read().startswith(REPORT)
    if status != 1 or not is_told:
        return f"status {status}, and another report"
    return None if most is not None and most < MOST_KIB else f"{most} KiB were resident, and not less than {MOST_KIB}"


def main(programs):
    """Makes the run of each program."""
    passed = failed = 0
    for program in programs:
        fault = fault_of(os.path.abspath(program), "one core.k trace.log --workers 1 --other-heap")
        passed, failed = (passed, failed + 1) if fault else (passed + 1, failed)
        if fault:
            print(f"FAILED: a log with a history, by {program}: {fault}")
    print(f"memory: {passed} passed, {failed} failed")
    return 1 if failed else 0


if __name__ == "__main__":
    sys.exit(main(sys.argv[1:]))
