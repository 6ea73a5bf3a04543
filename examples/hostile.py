#!/usr/bin/env python3
"""Runs leak_find over inputs made to take time or memory, and prints what it answered, how long it took and its peak
memory.

    examples/hostile.py LEAK_FIND [NAME..]

LEAK_FIND is the program; NAMEs choose cases, and without one all are run but those of a gigabyte and more ('--large'
runs them too). Each case says what is wanted: a refusal by its text, or the first lines of a report. The status is 0
where all came out so. Files are made in a temporary folder, and dropped after each case.
"""
import multiprocessing
import os
import random
import resource
import struct
import subprocess
import sys
import tempfile
import time

LOAD, NOTE = 1, 4


def header(kind, offset, vaddr, filesz, memsz, flags=6):
    return struct.pack("<IIQQQQQQ", kind, flags, offset, vaddr, 0, filesz, memsz, 4096)


def file_header(phoff, count, shoff=0):
    ident = b"\x7fELF\x02\x01\x01" + bytes(9)
    return ident + struct.pack("<HHIQQQIHHHHHH", 4, 62, 1, 0, phoff, shoff, 0, 64, 56, count, 64, 0, 0)


def thread_status():
    return struct.pack("<III", 5, 336, 1) + b"CORE\0\0\0\0" + bytes(336)


def core_with(headers, notes=None):
    """A core of one part of notes and the headers, none of which has contents."""
    notes = thread_status() if notes is None else notes
    count = len(headers) + 1
    start = 64 + 56 * count
    first = header(NOTE, start, 0, len(notes), 0, 0)
    return file_header(64, count) + first + b"".join(headers) + notes


def empty_segments(addresses):
    return [header(LOAD, 0, a, 0, 4096) for a in addresses]


def page(i):
    return 0x10000 + 8192 * i


COUNT = 65533
ACCEPTED = "blocks 0 bytes 0"


def write(path, data):
    with open(path, "wb") as f:
        f.write(data)


def orders(core, log):
    random.seed(7)
    ascending = [page(i) for i in range(COUNT)]
    shuffled = list(ascending)
    random.shuffle(shuffled)
    zigzag = [ascending[i // 2] if i % 2 == 0 else ascending[-1 - i // 2] for i in range(COUNT)]
    for name, addresses in (
        ("ascending", ascending),
        ("descending", ascending[::-1]),
        ("from both ends", zigzag),
        ("shuffled", shuffled),
    ):
        write(core, core_with(empty_segments(addresses)))
        write(log, b"")
        yield "headers " + name, ACCEPTED
    for name, last in (("first", ascending[0]), ("middle", ascending[COUNT // 2]), ("next to last", ascending[-2])):
        write(core, core_with(empty_segments(ascending[:-1] + [last])))
        write(log, b"")
        yield "last header over the " + name, "header %d: overlaps an earlier segment" % COUNT
    write(core, core_with([header(NOTE, 0, 0, 0, 0, 0)] * COUNT))
    write(log, b"")
    yield "empty parts of notes", ACCEPTED


def notes(core, log):
    entries = bytes(100_000_000 // 12 * 12)
    write(core, core_with([], thread_status() + entries))
    write(log, b"")
    yield "100 million bytes of empty notes", ACCEPTED
    write(core, core_with([], entries + thread_status()[:-1]))
    yield "the same, and the last is cut off", "note at %d is cut off" % (64 + 56 + len(entries))
    write(core, core_with([], thread_status() * 5000))
    yield "5,000 threads", ACCEPTED


def names(core, log):
    lines = [b"@ a" + bytes([b]) + b"b[0x1] + 0x%x 0x10\n" % (0x10000 + 32 * b) for b in range(256) if b != 10]
    write(core, core_with([]))
    write(log, b"".join(lines))
    yield "names with each byte", "blocks 255 bytes 4080", [line[2:9] for line in lines]


def many_lines(core, log):
    write(core, core_with([]))
    write(log, b"- (nil)\n" * (1 << 22))
    yield "4 million shortest lines", ACCEPTED
    with open(log, "wb") as f:
        for _ in range(64):
            f.write(b"+ 0x10000 0x10\n- 0x10000\n" * (1 << 14))
    yield "a million blocks at one address", ACCEPTED
    with open(log, "wb") as f:
        for i in range(1 << 20):
            f.write(b"+ 0x%x 0x10\n" % (0x10000000 - 32 * i % 0x8000000 + 0x8000000 * (i & 1)))
    yield "a million blocks out of order", None
    with open(log, "wb") as f:
        for i in range(1_100_000):
            f.write(b"+ 0x%x 0x10\n" % (0x100000 + 32 * i))
    yield "1,100,000 lost blocks", "blocks 1100000 bytes 17600000"
    write(log, b"=" + b"x" * (1 << 26) + b"\n")
    yield "a line of 64 MiB", ACCEPTED
    write(log, b"@ " + b"] " * (1 << 25) + b"+ 0x10000 0x10\n")
    yield "a name of 64 MiB of brackets", "blocks 1 bytes 16"
    write(log, b"@ " + b" +" * (1 << 25) + b"\n")
    yield "a place that never ends", "line 1 is not an mtrace line"


def large_lines(core, log):
    write(core, core_with([]))
    with open(log, "wb") as f:
        for _ in range(1 << 7):
            f.write(b"- (nil)\n" * (1 << 20))
    yield "a gigabyte of shortest lines", ACCEPTED
    with open(log, "wb") as f:
        f.write(b"=")
        for _ in range(1 << 10):
            f.write(b"x" * (1 << 20))
        f.write(b"\n")
    yield "a line of a gigabyte", ACCEPTED


def sparse(core, log):
    size = 4 << 30
    note = thread_status()
    at = 64 + 56 * 2
    with open(core, "wb") as f:
        f.write(file_header(64, 2) + header(NOTE, at, 0, len(note), 0, 0) + header(LOAD, 4096, 0x10000, size,
                                                                                   size) + note)
        f.truncate(4096 + size)
    write(log, b"+ 0x20000 0x10\n")
    yield "a sparse core of 4 GiB", "blocks 1 bytes 16"


def run(program, core, log, limit=None):
    """Runs the search: its status, output, errors, seconds and peak memory in MiB."""
    with tempfile.TemporaryFile() as out, tempfile.TemporaryFile() as err:
        start = time.monotonic()
        child = subprocess.Popen(
            [program, "one", core, log], stdout=out, stderr=err,
            preexec_fn=(lambda: resource.setrlimit(resource.RLIMIT_AS, (limit, limit))) if limit else None)
        _, status, usage = os.wait4(child.pid, 0)
        child.returncode = os.waitstatus_to_exitcode(status)
        seconds = time.monotonic() - start
        out.seek(0)
        err.seek(0)
        # the first MiB is enough to compare, and this process stays small: its peak is counted too
        said = out.read(1 << 20), err.read().decode(errors="replace")
        return child.returncode, *said, seconds, usage.ru_maxrss / 1024


def faults(err):
    """What was said on the error stream but for warnings, which these inputs give cause for: most have no live
    block."""
    return "".join(line for line in err.splitlines(True) if not line.startswith("leak_find: warning: "))


def is_wanted(wanted, texts, status, out, err):
    if not all(text in out for text in texts):
        return False
    if wanted is None:
        return status in (0, 1)
    if status == 2:
        return not out and err.endswith(wanted + "\n")
    return status in (0, 1) and not faults(err) and out.startswith(wanted.encode() + b"\n")


def limits(runner, program, folder):
    """Gives the search more and more memory, from 8 MiB on: it answers want of memory, with no output, until it gives
    its report."""
    core, log = os.path.join(folder, "core"), os.path.join(folder, "log")
    write(core, core_with(empty_segments([page(i) for i in range(1000)])))
    write(log, b"".join(b"@ c%d + 0x%x 0x10\n" % (i % 1000, 0x10000 + 32 * i) for i in range(200_000)))
    limit, bad, refused = 8 << 20, 0, 0
    while True:
        status, out, err, _, _ = runner.apply(run, (program, core, log, limit))
        if status == 1:
            break
        refused += 1
        fine = status == 2 and not out and err.endswith("out of memory\n")
        if not fine:
            bad += 1
            print("  at %d KiB: status %s, %d bytes of output, %s" % (limit >> 10, status, len(out), err.strip()))
        limit += limit // 32
    print("%-40s %s: %d runs refused, then the report at %d MiB" % ("memory limits", "bad" if bad else "fine", refused,
                                                                    limit >> 20))
    return bad


CASES = {"orders": orders, "notes": notes, "names": names, "lines": many_lines}
LARGE = {"large_lines": large_lines, "sparse": sparse}


def main():
    words = sys.argv[1:]
    if not words:
        sys.exit(__doc__)
    program, chosen = os.path.abspath(words[0]), words[1:]
    cases = dict(CASES, **LARGE) if "--large" in chosen else dict(CASES)
    named = [w for w in chosen if not w.startswith("--")]
    bad = 0
    # A process of its own, that stays small: a child's peak memory counts what its parent had.
    runner = multiprocessing.Pool(1)
    with tempfile.TemporaryDirectory() as folder:
        core, log = os.path.join(folder, "core"), os.path.join(folder, "log")
        for name, make in dict(CASES, **LARGE).items():
            if (name not in named) if named else (name not in cases):
                continue
            for what, wanted, *texts in make(core, log):
                status, out, err, seconds, peak = runner.apply(run, (program, core, log))
                fine = is_wanted(wanted, texts[0] if texts else [], status, out, err)
                bad += not fine
                inputs = (os.path.getsize(core) + os.path.getsize(log)) / (1 << 20)
                print("%-40s %s %8.0f MiB in, %7.2f s, %6.0f MiB peak" % (what, "fine" if fine else "bad: " +
                                                                          (faults(err).strip() or str(status)), inputs,
                                                                          seconds, peak), flush=True)
        if not named or "limits" in named:
            bad += limits(runner, program, folder)
    sys.exit(1 if bad else 0)


if __name__ == "__main__":
    main()
