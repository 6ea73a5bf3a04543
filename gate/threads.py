#!/usr/bin/env python3
"""How many threads a run starts: `--workers` of the command line reaches sifting and marking, and `--piece` and `--stack`
reach marking.

    python3 gate/threads.py PROGRAM [PROGRAM ..]

The number of threads rests on these options, and no report does: runs that differ by nothing else must write the same. A run is
traced (ptrace(2)), which tells of each thread that it starts, so no count rests on time. The last line is `threads: N passed, M failed`; the status is 1 where something failed.
"""
import contextlib
import ctypes
import os
import re
import signal
import sys
import tempfile

from cores import SEGMENT, SIZE, core, field, word

SECONDS = 20
ENVIRONMENT = {"PATH": "/usr/bin:/bin", "LANG": "C.UTF-8"}
LIBRARY = ctypes.CDLL(None, use_errno=True)
# Of sys/ptrace.h and wait.h, for Linux.
TRACE_ME, GO_ON, SET_OPTIONS = 0, 7, 0x4200
TELL_OF_THREADS, END_WITH_US = 8, 0x100000
THREAD_STARTED = 3
EACH_THREAD = 0x40000000
# The options on which no report rests.
OF_THREADS = re.compile(r" --(workers|piece|stack) \d+")


def trace(request, process, data=0):
    """Makes a request of ptrace(2)."""
    words = [ctypes.c_long(request), ctypes.c_long(process), ctypes.c_void_p(0), ctypes.c_void_p(data)]
    if LIBRARY.ptrace(*words) == -1:
        raise OSError(ctypes.get_errno(), "ptrace")


def begin(program, line, folder):
    """Starts the run in its folder, and gives its number. It is stopped at its first instruction."""
    process = os.fork()
    if process:
        return process
    try:
        os.chdir(folder)
        for stream, name in ((1, "stdout"), (2, "stderr")):
            os.dup2(os.open(name, os.O_WRONLY | os.O_CREAT, 0o600), stream)
        trace(TRACE_ME, 0)
        os.execve(program, ["leak_find", *line.split()], ENVIRONMENT)
    finally:
        os._exit(126)


def passed_on(status):
    """The signal that a stop hands on to the run: none of those by which tracing tells something."""
    number = os.WSTOPSIG(status)
    return 0 if number in (signal.SIGTRAP, signal.SIGSTOP) else number


def follow(process):
    """Lets the run go on to its end. Gives how many threads it started, and its exit status."""
    started = 0
    os.waitpid(process, 0)
    trace(SET_OPTIONS, process, TELL_OF_THREADS | END_WITH_US)
    trace(GO_ON, process)
    while True:
        stopped, status = os.waitpid(-1, EACH_THREAD)
        if os.WIFSTOPPED(status):
            started += status >> 16 == THREAD_STARTED
            trace(GO_ON, stopped, passed_on(status))
        elif stopped == process:
            return started, os.waitstatus_to_exitcode(status)


def is_late(*_):
    """Ends the waiting for a run."""
    raise TimeoutError(f"no end within {SECONDS} seconds")


def end(process):
    """Ends what is left of a run."""
    with contextlib.suppress(ProcessLookupError):
        os.kill(process, signal.SIGKILL)
    with contextlib.suppress(ChildProcessError):
        while True:
            os.waitpid(-1, EACH_THREAD)


def started_by(program, line, files):
    """How many threads a run over the files starts, its exit status and its report; or why that can't be told, and None twice."""
    with tempfile.TemporaryDirectory(prefix="threads-") as folder:
        for name, content in files.items():
            with open(f"{folder}/{name}", "wb") as file:
                file.write(content)
        process = begin(program, line, folder)
        signal.signal(signal.SIGALRM, is_late)
        signal.alarm(SECONDS)
        try:
            started, status = follow(process)
            with open(f"{folder}/stdout", "rb") as file:
                return started, status, file.read()
        except OSError as error:
            return str(error), None, None
        finally:
            signal.alarm(0)
            end(process)


def core_of(size, *parts):
    """The sample core with so many bytes, of which all from 4,096 on are the segment's."""
    segment = size - SEGMENT
    return core(lambda image: image.extend(bytes(size - SIZE)), field(152, segment, 8), field(160, segment, 8), *parts)


def wide_core(*parts):
    """The sample core with a segment of 36,864 bytes."""
    return core_of(0xa000, *parts)


def wide_star(size=0xa000):
    """A core and a log: a root word leads to a block at 0x11000, which leads to 1200 blocks of 8 bytes that touch one another."""
    starts = [0x14000 + 8 * place for place in range(1200)]
    links = [word(0x11000 + 8 * place, start) for place, start in enumerate(starts)]
    log = "+ 0x11000 0x2580\n" + "".join(f"+ {start:#x} 0x8\n" for start in starts)
    return core_of(size, word(0x10008, 0x11000), *links), log.encode()


def led_blocks(count):
    """A core and a log: a root word leads to each of so many blocks of 8 bytes."""
    starts = [0x10800 + 8 * place for place in range(count)]
    roots = [word(0x10008 + 8 * place, start) for place, start in enumerate(starts)]
    return {"core.k": core(*roots), "trace.log": "".join(f"+ {start:#x} 0x8\n" for start in starts).encode()}


def many_blocks(count):
    """A core and a log: a root word leads to the first of so many blocks of 8 bytes, and each of them to the next."""
    starts = [0x14000 + 8 * place for place in range(count)]
    links = [word(place, start) for place, start in zip([0x10008, *starts], starts)]
    log = "".join(f"+ {start:#x} 0x8\n" for start in starts)
    return {"core.k": core_of(0x26000, *links), "trace.log": log.encode()}


def of_roots():
    """40 blocks to which root words lead: in the first round they are the items. Each worker lists the links of a share of them, and
    has a share of the items. Each that has one is a thread, but the first of them."""
    return [
        ("a worker alone", "--workers 1", 0),
        ("two workers", "--workers 2", 1 + 1),
        ("three workers", "--workers 3", 2 + 2),
        ("four workers, if none are asked for", "", 3 + 3),
        ("64 workers", "--workers 64", 39 + 39),
        ("64 workers and pieces of one word", "--workers 64 --piece 1", 39 + 39),
    ]


def of_stacks():
    """The star, in a core that has room for its links, by three workers: two threads list them. The first round has one item.
    Blocks that a stack has no room for wait. Where 1000 wait besides the first, two threads more scan them."""
    return [
        ("no stack", "--workers 3 --stack 0", 2 + 2),
        ("a stack that leaves 1001 blocks", "--workers 3 --stack 199", 2 + 2),
        ("a stack that leaves 1000 blocks", "--workers 3 --stack 200", 2),
        ("a stack of 1024 blocks, if none is asked for", "--workers 3", 2),
        ("the greatest stack", "--workers 3 --stack 65536", 2),
        ("a worker alone without a stack", "--workers 1 --stack 0", 0),
    ]


def of_long():
    """One block, in a core of 2 MiB and 16 KiB. It is read in pieces of 512 KiB for each worker. Of the first one each worker,
    the caller among them, sifts a part; of those behind it each but the caller, which reads on, if they are three or more; and
    the caller alone sifts the last 16 KiB. So two workers read two pieces before these, three read one of 1.5 MiB and the rest,
    and four read one of 2 MiB. Sixteen or more read pieces of 8 MiB, and 64 cut the core into 16 parts of 128 KiB. The first
    round has one item. A core that is held is not sifted."""
    return [
        ("a long core by a worker alone", "--workers 1", 0),
        ("a long core by two workers", "--workers 2", 2 * 1),
        ("a long core by three workers", "--workers 3", 2 * 2),
        ("a long core by four workers, if none are asked for", "", 3),
        ("a long core by 64 workers", "--workers 64", 15),
        ("a long core that is held", "--workers 4 --skip-dead-stack", 0),
    ]


def lone_blocks(count):
    """A core and a log: so many blocks of 8 bytes, and a root word leads to each of the first 40."""
    starts = [0x14000 + 8 * place for place in range(count)]
    roots = [word(0x10008 + 8 * place, start) for place, start in enumerate(starts[:40])]
    log = "".join(f"+ {start:#x} 0x8\n" for start in starts)
    return {"core.k": core_of(0x26000, *roots), "trace.log": log.encode()}


def of_lone():
    """16,384 blocks that lead nowhere. Each of two workers lists the links of a share of them. Of more, one finds the root words while
    the others do so. Of the 40 blocks to which root words lead each worker has a share."""
    return [
        ("16,384 lone blocks by a worker alone", "--workers 1", 0),
        ("16,384 lone blocks by two workers", "--workers 2", 1 + 1),
        ("16,384 lone blocks by three workers", "--workers 3", (1 + 1) + 2),
        ("16,384 lone blocks by four workers", "--workers 4", (1 + 2) + 3),
        ("16,384 lone blocks by 64 workers", "--workers 64", (1 + 62) + 39),
    ]


def of_many():
    """16,384 blocks whose links have no room. The workers list links until there is no more, twice: for a listing, beside the root
    words if they are more than two, and to mark by links. Then they mark over words, and in the first round each scans pieces: of 27
    register words, and of a range of 2,048 words. If links to free chunks are left out, a thread finds the root words beside the
    lookup, unless one worker does all: twice, too."""
    return [
        ("16,384 blocks by a worker alone", "--workers 1", 0),
        ("16,384 blocks by two workers", "--workers 2", 2 * 1 + 1),
        ("16,384 blocks by four workers", "--workers 4", 2 * 3 + 3),
        ("16,384 blocks in pieces of 27 words", "--workers 64 --piece 27", 2 * 63 + 63),
        ("16,384 blocks in pieces of 512 words, if none are asked for", "--workers 64", 2 * 63 + 4),
        ("16,384 blocks in pieces of 65536 words", "--workers 64 --piece 65536", 2 * 63 + 1),
        ("16,384 blocks without links, by two workers", "--workers 2 --skip-links", 2 * (1 + 1) + 1),
    ]


def of_fewer():
    """One block fewer: the caller finds the root words."""
    return [("16,383 blocks without links, by two workers", "--workers 2 --skip-links", 2 * 1 + 1)]


def of_long_holders():
    """The same, of whose one block a worker lists the links."""
    return [
        ("holders of a long core by a worker alone", "--workers 1", 0),
        ("holders of a long core by four workers", "--workers 4", 3),
    ]


def of_short_holders():
    """One block, in a core of 256 KiB, with less behind its head: so the caller alone sifts it."""
    return [("holders of a core of 256 KiB", "--workers 4", 0)]


def of_two():
    """Two cores, in both of which the block is held. The first is marked as one core is, and in the second the block is an item more."""
    return [
        ("two cores by a worker alone", "--workers 1 --piece 1", 0),
        ("two cores by two workers", "--workers 2 --piece 1", 1 + 1),
        ("two cores by 64 workers", "--workers 64 --piece 1", 63 + 63),
        ("two cores in pieces of 512 words", "--workers 64", 2 + 3),
        ("two cores in pieces of 27 words", "--workers 64 --piece 27", 20 + 21),
    ]


def of_two_stacks():
    """The star in the second core alone, where no links are listed: none of its blocks is kept."""
    return [("two cores and no stack", "--workers 3 --stack 0", 4 + 2 + 2), ("two cores and a stack", "--workers 3 --stack 200", 4 + 2)]


def of_holders():
    """Of the star the workers list the links. One thread marks."""
    return [("holders by a worker alone", "--workers 1", 0), ("holders by three workers", "--workers 3", 2),
            ("holders by 64 workers", "--workers 64", 63)]


def cases():
    """Each case: its name, its command line, its files, how many threads it starts, and its exit status."""
    # (the root word stands in the long range behind the block)
    root = word(0x10208, 0x10100)
    block, lines = core(root), b"+ 0x10100 0x20\n"
    star, star_lines = wide_star()
    few, fitting = ({"core.k": it, "trace.log": star_lines} for it in (star, wide_star(0x3c000)[0]))
    sizes = (0x204000, 0x40000)
    long, short = [{"core.k": core_of(size, root), "trace.log": lines} for size in sizes]
    pair = {"core.1": block, "log.1": lines, "core.2": block, "log.2": lines}
    stars = {"core.1": wide_core(), "log.1": star_lines, "core.2": star, "log.2": star_lines}
    of_one, of_both = "one core.k trace.log", "two core.1 log.1 core.2 log.2"
    tables = [(of_roots(), of_one, led_blocks(40)), (of_stacks(), of_one, fitting), (of_two(), of_both, pair), (of_two_stacks(), of_both, stars),
              (of_holders(), "holders core.k trace.log", few), (of_long(), of_one, long),
              (of_long_holders(), "holders core.k trace.log", long),
              (of_short_holders(), "holders core.k trace.log", short), (of_many(), of_one, many_blocks(0x4000)),
              (of_fewer(), of_one, many_blocks(0x3fff))]
    leaking = [(of_lone(), of_one, lone_blocks(0x4000))]
    return [(name, f"{line} {options} --other-heap", files, [threads, status]) for status, some in enumerate((tables, leaking))
            for table, line, files in some for name, options, threads in table]


def is_as_before(reports, line, files, report):
    """Whether a report is that of the first run over the files by the options but those of threads."""
    return reports.setdefault((id(files), OF_THREADS.sub("", line)), report) == report


def main(programs):
    """Makes the runs of each program."""
    passed = failed = 0
    runs = cases()
    for program in programs:
        reports = {}
        for name, line, files, wanted in runs:
            *got, report = started_by(os.path.abspath(program), line, files)
            is_same = is_as_before(reports, line, files, report)
            if got == wanted and is_same:
                passed += 1
                continue
            failed += 1
            print(f"FAILED: {name}, by {program}\n  words: {line}\n  wanted: {wanted}, threads and status\n  got: {got}"
                  + ("" if is_same else "\n  and another report than with other threads"))
    print(f"threads: {passed} passed, {failed} failed")
    return 1 if failed else 0


if __name__ == "__main__":
    sys.exit(main(sys.argv[1:]))
