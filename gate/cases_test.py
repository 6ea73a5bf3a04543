#!/usr/bin/env python3
"""Shows that cases.py fails if a run is not as its case says, by shell scripts in place of the program.

    python3 gate/cases_test.py

The last line is `cases_test: N passed, M failed`, and the status is 1 if something failed.
"""

import contextlib
import io
import os
import sys
import tempfile
import time
from dataclasses import replace

import cases
import rows
import rows_options
import rows_words
from case import case

GOOD = 'read line < in.txt; echo "$line, $1"; echo warned >&2; exit 3'
WANTED = case("greeting", "the script says so", "you", {"in.txt": "hello\n"}, "hello, you\n", "warned\n", 3)
SHORT = 0.5  # seconds for a script that does not end


def script(folder, name, body, mode=0o755):
    """A script that stands for the program."""
    path = os.path.join(folder, name)
    with open(path, "w", encoding="utf-8") as file:
        file.write(f"#!/bin/sh\n{body}\n")
    os.chmod(path, mode)
    return path


def counted(given, programs, seconds=cases.SECONDS):
    """The passed and failed runs, and what was printed."""
    printed = io.StringIO()
    with contextlib.redirect_stdout(printed):
        numbers = cases.run_all(given, programs, seconds)
    return numbers, printed.getvalue()


def bodies():
    """Scripts that are not as the case says, and what the failure has to tell."""
    return [
        ("another output", GOOD.replace("$line, $1", "$line; $1"), "stdout:"),
        ("no output", "echo warned >&2; exit 3", "-hello, you"),
        ("a line more", GOOD.replace("; exit", "; echo; exit"), "stdout:"),
        ("no line end", GOOD.replace('echo "$line, $1"', 'printf "%s, %s" "$line" "$1"'), "stdout:"),
        ("another byte", GOOD.replace('echo "$line, $1"', r'printf "hello, you\377\n"'), r"\xff"),
        ("another error", GOOD.replace("warned", "warns"), "stderr:"),
        ("no error", GOOD.replace("echo warned >&2", ":"), "-warned"),
        ("another status", GOOD.replace("exit 3", "exit 2"), "status: wanted 3, got 2"),
        ("a file more", GOOD.replace("exit", "echo x > more; exit"), "files: wanted"),
        ("a file less", GOOD.replace("exit", "rm in.txt; exit"), "files: wanted"),
        ("another file", GOOD.replace("exit", "echo x > in.txt; exit"), "file 'in.txt' was changed"),
        ("a signal", GOOD.replace("exit 3", "kill -9 $$"), "status: wanted 3, got -9"),
        ("no end", "exec sleep 60", "did not end"),
        ("a child without an end", "sleep 60 & wait", "did not end"),
        ("output and no end", "echo hello, you; exec sleep 60", "did not end"),
    ]


def wrong_runs(folder):
    """Each of these scripts fails its case, and the failure is told with the case's name and words."""
    for name, body, told in bodies():
        seconds = SHORT if told == "did not end" else cases.SECONDS
        numbers, printed = counted([WANTED], [script(folder, "wrong", body)], seconds)
        named = "FAILED: greeting" in printed and "words: you" in printed
        yield name, numbers == (0, 1) and told in printed and named


def programs_to_run(folder):
    """Programs that are missing or can't be run count as failures, beside one that is good."""
    good = script(folder, "good", GOOD)
    unrunnable = script(folder, "unrunnable", GOOD, 0o644)
    no_shell = os.path.join(folder, "no_shell")
    with open(no_shell, "wb") as file:
        file.write(b"\x7fELF")
    os.chmod(no_shell, 0o755)
    yield "a good program", counted([WANTED], [good])[0] == (1, 0)
    yield "two good programs", counted([WANTED], [good, good])[0] == (2, 0)
    for name, program in (("a missing program", os.path.join(folder, "none")), ("a folder", folder),
                          ("a program that may not run", unrunnable), ("a file that is no program", no_shell)):
        yield name, counted([WANTED], [program])[0] == (0, 1)
        yield f"{name} beside a good one", counted([WANTED], [good, program])[0] == (1, 1)


def surroundings(folder):
    """A run has its own folder, few variables, an empty standard input, and the streams of its case."""
    listing = script(folder, "listing", 'ls; cat; env | grep -v -e ^PWD= -e ^_= -e ^SHLVL= -e ^OLDPWD= | sort')
    seen = "b\nin.txt\nLANG=C.UTF-8\nPATH=/usr/bin:/bin\n"
    quiet = case("surroundings", "nothing else is there", "", {"in.txt": "", "b": None}, seen)
    yield "a fresh folder and few variables", counted([quiet], [listing])[0] == (1, 0)
    closing = script(folder, "closing", "mkdir held && sleep 0.2 && rmdir held")
    alone = case("alone", "the folder of another run is another", "", {})
    yield "a folder for each run", counted([alone, replace(alone, name="again")], [closing, closing])[0] == (4, 0)
    echoing = script(folder, "echoing", "echo x 2>&- && exit 0; exit 7")
    for place in ("/dev/full", "closed"):
        taken = case("taken", "the write fails", "", {}, "", "", 7, {"stdout": place})
        yield f"standard output: {place}", counted([taken], [echoing])[0] == (1, 0)
        yield f"standard output: {place}, another status", counted([replace(taken, status=0)], [echoing])[0] == (0, 1)


def whole_runs(folder):
    """The statuses of cases.py, and names that are there twice."""
    bad = script(folder, "bad", "exit 9")
    for name, programs, status in (("no program", [], 2), ("a program that is bad", [bad], 1),
                                   ("a program that is missing", ["none"], 1)):
        printed = io.StringIO()
        with contextlib.redirect_stdout(printed), contextlib.redirect_stderr(io.StringIO()):
            told = with_cases([WANTED], lambda: cases.main(programs))
        yield name, told == status and (status == 2 or printed.getvalue().endswith("cases: 0 passed, 1 failed\n"))
    good = script(folder, "good", GOOD)
    with contextlib.redirect_stdout(io.StringIO()):
        yield "a program that is good", with_cases([WANTED], lambda: cases.main([good])) == 0
        yield "two cases of one name", with_cases([WANTED, WANTED], lambda: cases.main([good])) == 1


def options_of_the_table(_folder):
    """Each flag that says which words keep a block has a block of its own: it is one of `why`, and speaks of no warning."""
    flags = {it.name for it in rows_words.TABLE.of("why") if not it.value}
    yield "a block for each flag", set(rows_options.OPTIONS) == flags - {"--other-heap", "--strict"}


def with_cases(given, run):
    """What the call gives if these are all cases."""
    kept, rows.all_cases = rows.all_cases, lambda: given
    try:
        return run()
    finally:
        rows.all_cases = kept


def main():
    """Runs all tests."""
    passed = failed = 0
    begun = time.monotonic()
    for tests in (wrong_runs, programs_to_run, surroundings, whole_runs, options_of_the_table):
        with tempfile.TemporaryDirectory(prefix="cases-test-") as folder:
            for name, is_right in tests(folder):
                passed, failed = (passed + 1, failed) if is_right else (passed, failed + 1)
                if not is_right:
                    print(f"FAILED: {tests.__name__}: {name}")
    if time.monotonic() - begun > 30:
        print("FAILED: a run that does not end was waited for")
        failed += 1
    return cases.finish("cases_test", passed, failed)


if __name__ == "__main__":
    sys.exit(main())
