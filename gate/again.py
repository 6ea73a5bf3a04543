#!/usr/bin/env python3
"""again.py SCRIPT [PART..]: runs a script of tests, and its parts in which a test failed once more, without the others.

Tests that go by the clock may fail beside proofs, each time another; what is wrong fails again. The script's last line must be
`NAME: N passed, M failed`, behind a line `parts with failures: PART..`; without that line nothing is tried again, as where the
tests ended early. Then failures are those of the second try. The last line has the sum, and the status is 0 if nothing failed.
"""
import re
import subprocess
import sys

COUNT = re.compile(r"(\S+: )(\d+) passed, (\d+) failed")
PARTS = re.compile(r"parts with failures: (.+)")


def run(words):
    """Runs a command and copies what it prints. Gives the match of its last line, or None, and the parts that it names."""
    process = subprocess.Popen(words, stdout=subprocess.PIPE, text=True, errors="replace")
    last, parts = "", []
    with process.stdout:
        for line in process.stdout:
            print(line, end="", flush=True)
            last = line.rstrip("\n") if line.strip() else last
            named = PARTS.fullmatch(line.rstrip("\n"))
            parts = named[1].split() if named else parts
    status = process.wait()
    count = COUNT.fullmatch(last)
    return count if count and (status != 0) == (int(count[3]) > 0) else None, parts


def main(script, *parts):
    """Runs the script, and again what failed."""
    count, failing = run([script, *parts])
    if count is None:
        print("again: no count at the end, or another status than it tells")
        return 1
    passed, failed = int(count[2]), int(count[3])
    if not failing:
        return 1 if failed else 0
    print(f"== once more: {' '.join(failing)}", flush=True)
    second, _ = run([script, *failing])
    left = failed if second is None else int(second[3])
    passed, failed = passed + failed - min(left, failed), left
    print(f"{count[1]}{passed} passed, {failed} failed", flush=True)
    return 1 if failed else 0


if __name__ == "__main__":
    sys.exit(main(*sys.argv[1:]))
