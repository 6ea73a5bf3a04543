#!/usr/bin/env python3
"""Runs each program over each case, and compares standard output, standard error and exit status byte by byte.

A run that changes a file of its folder, or leaves another there, fails too.

    python3 gate/cases.py PROGRAM [PROGRAM ..]

Each run has a folder of its own, with the files of the case, an environment of PATH and LANG alone, and ten seconds. A
program that is missing counts as one failure. The last line is `cases: N passed, M failed`; the status is 1 if
something failed, and 2 where no program is named. docs/EXAMPLES.md says how to add a case.
"""

import difflib
import os
import shlex
import signal
import subprocess
import sys
import tempfile
from concurrent.futures import ThreadPoolExecutor
from pathlib import Path

import rows

SECONDS = 10
SHOWN = 24  # lines of a difference
ENVIRONMENT = {"PATH": "/usr/bin:/bin", "LANG": "C.UTF-8"}
CLOSED = {"stdout": ">&-", "stderr": "2>&-"}


def lay_out(folder, files):
    """Writes the files of a case."""
    for name, content in files.items():
        path = os.path.join(os.fsencode(folder), os.fsencode(name))
        if content is None:
            os.mkdir(path)
            continue
        with open(path, "wb") as file:
            file.write(content)


def closings(case):
    """What closes the streams of a case, in a shell."""
    return " ".join(CLOSED[stream] for stream, place in case.places.items() if place == "closed")


def names_below(folder):
    """The files and folders below a folder, as paths from there."""
    return [os.path.relpath(os.path.join(at, name), folder) for at, folders, files in os.walk(folder) for name in folders + files]


def changes(folder, files):
    """What a run has changed in its folder, as lines."""
    place = os.fsencode(folder)
    wanted, got = sorted(os.fsencode(name) for name in files), sorted(names_below(place))
    found = [f"  files: wanted {wanted}, got {got}"] if wanted != got else []
    for name, content in files.items():
        path = os.path.join(place, os.fsencode(name))
        if content is not None and os.path.isfile(path) and Path(os.fsdecode(path)).read_bytes() != content:
            found.append(f"  file {name!r} was changed")
    return found


def command_of(case, program):
    """The words of the run, through a shell if a stream is to be closed. The program is called by its usual name."""
    closed = closings(case)
    return ["sh", "-c", f'exec "$0" "$@" {closed}', program, *case.words] if closed else ["leak_find", *case.words]


def stream_of(case, stream):
    """Where a stream of the run goes: into a pipe, or to a device."""
    place = case.places.get(stream, "pipe")
    return subprocess.PIPE if place in ("pipe", "closed") else open(place, "wb")


def start(case, program, folder):
    """Starts the run in its folder, as the first process of a group."""
    streams = {stream: stream_of(case, stream) for stream in ("stdout", "stderr")}
    try:
        return subprocess.Popen(
            command_of(case, program), executable="/bin/sh" if closings(case) else program, cwd=folder, env=ENVIRONMENT,
            stdin=subprocess.DEVNULL, start_new_session=True, **streams)
    finally:
        for opened in streams.values():
            if opened != subprocess.PIPE:
                opened.close()


def ended(process, seconds):
    """What the run wrote, or None if it has to be killed."""
    try:
        return process.communicate(timeout=seconds)
    except subprocess.TimeoutExpired:
        os.killpg(process.pid, signal.SIGKILL)
        process.communicate()
        return None


def difference(title, wanted, got):
    """The lines that differ, few of them."""
    lines = difflib.unified_diff(lines_of(wanted), lines_of(got), "wanted", "got", lineterm="", n=1)
    shown = list(lines)
    more = [f"    .. {len(shown) - SHOWN} lines more"] if len(shown) > SHOWN else []
    return [f"  {title}:", *(f"    {line}" for line in shown[:SHOWN]), *more]


def lines_of(content):
    """The lines of bytes, so that each byte can be seen. What follows the last line feed is a line if it is not empty."""
    *whole, rest = content.split(b"\n")
    return [repr(line + b"\n")[2:-1] for line in whole] + ([repr(rest)[2:-1]] if rest else [])


def faults(case, program, seconds):
    """What is wrong with a run of the case, as lines. None: the run is as it should be."""
    with tempfile.TemporaryDirectory(prefix="case-") as folder:
        lay_out(folder, case.files)
        try:
            process = start(case, program, folder)
        except OSError as error:
            return [f"  cannot be started: {error}"]
        written = ended(process, seconds)
        found = changes(folder, case.files)
    if written is None:
        return [f"  did not end within {seconds} seconds"]
    for title, wanted, got in zip(("stdout", "stderr"), (case.stdout, case.stderr), written):
        if wanted != (got or b""):
            found += difference(title, wanted, got or b"")
    if process.returncode != case.status:
        found.append(f"  status: wanted {case.status}, got {process.returncode}")
    return found


def tell(case, program, found):
    """Prints what is wrong with a run."""
    words = shlex.join(os.fsdecode(word) for word in case.words)
    print(f"FAILED: {case.name}, by {program}\n  words: {words}\n  because: {case.reason}", *found, sep="\n")


def run_all(cases, programs, seconds=SECONDS):
    """Runs each case by each program, prints the failures, and gives the numbers of passed and of failed ones."""
    passed = failed = 0
    for program in programs:
        if not (os.path.isfile(program) and os.access(program, os.X_OK)):
            print(f"FAILED: {program} is missing")
            failed += 1
            continue
        path = os.path.abspath(program)
        with ThreadPoolExecutor(os.cpu_count()) as pool:
            answers = pool.map(lambda case: faults(case, path, seconds), cases)
            for case, found in zip(cases, answers):
                passed, failed = (passed, failed + 1) if found else (passed + 1, failed)
                if found:
                    tell(case, program, found)
    return passed, failed


def twice_named(cases):
    """The names that more than one case has."""
    names = [case.name for case in cases]
    return sorted({name for name in names if names.count(name) > 1})


def finish(title, passed, failed):
    """Prints the last line, and gives the exit status."""
    print(f"{title}: {passed} passed, {failed} failed")
    return 1 if failed else 0


def main(programs):
    """Runs all cases by the programs."""
    if not programs:
        print(f"usage: python3 {Path(__file__).name} PROGRAM [PROGRAM ..]", file=sys.stderr)
        return 2
    cases = rows.all_cases()
    repeated = twice_named(cases)
    for name in repeated:
        print(f"FAILED: two cases are named {name}")
    passed, failed = run_all(cases, programs)
    return finish("cases", passed, failed + len(repeated))


if __name__ == "__main__":
    sys.exit(main(sys.argv[1:]))
