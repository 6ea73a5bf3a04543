"""Tries again.py with scripts that stand in for tests."""
import os
import subprocess
import sys
import tempfile
import unittest

AGAIN = os.path.join(os.path.dirname(os.path.abspath(__file__)), "again.py")
# Each try of the stand-in takes the next of these lists of lines, and its words go into a file.
SCRIPT = """#!/bin/sh
echo "$*" >> words
try=$(wc -l < words)
cat try$try
exit $(cat status$try)
"""


class Again(unittest.TestCase):
    """The last line, the status, and what was run."""

    def check(self, tries, wanted, words=()):
        """Runs again.py where the tries print these texts and end with these statuses, and compares the end and the words."""
        with tempfile.TemporaryDirectory() as folder:
            for number, (text, status) in enumerate(tries, 1):
                for name, it in (("try", text), ("status", str(status))):
                    with open(f"{folder}/{name}{number}", "w", encoding="utf-8") as file:
                        file.write(it)
            with open(f"{folder}/tests", "w", encoding="utf-8") as file:
                file.write(SCRIPT)
            os.chmod(f"{folder}/tests", 0o755)
            ran = subprocess.run([sys.executable, AGAIN, "./tests", *words], cwd=folder, capture_output=True, text=True, check=False)
            with open(f"{folder}/words", encoding="utf-8") as file:
                self.assertEqual((ran.stdout.splitlines()[-1], ran.returncode, file.read().splitlines()), wanted, ran.stdout)

    def test_what_passes_runs_once(self):
        self.check([("ok   one\nit: 5 passed, 0 failed\n", 0)], ("it: 5 passed, 0 failed", 0, ["one two"]), ("one", "two"))

    def test_parts_that_failed_run_once_more(self):
        first = "FAIL one\nparts with failures: two four\nit: 5 passed, 2 failed\n", 1
        self.check([first, ("it: 3 passed, 0 failed\n", 0)], ("it: 7 passed, 0 failed", 0, ["", "two four"]))

    def test_what_fails_again_has_failed(self):
        first = "parts with failures: two\nit: 5 passed, 2 failed\n", 1
        self.check([first, ("parts with failures: two\nit: 3 passed, 1 failed\n", 1)], ("it: 6 passed, 1 failed", 1, ["", "two"]))
        self.check([first, ("it: 1 passed, 4 failed\n", 1)], ("it: 5 passed, 4 failed", 1, ["", "two"]))

    def test_a_second_try_without_a_count_mends_nothing(self):
        first = "parts with failures: two\nit: 5 passed, 2 failed\n", 1
        self.check([first, ("killed\n", 137)], ("it: 5 passed, 2 failed", 1, ["", "two"]))
        self.check([first, ("it: 3 passed, 0 failed\n", 1)], ("it: 5 passed, 2 failed", 1, ["", "two"]))

    def test_what_names_no_part_is_not_tried_again(self):
        self.check([("FAIL the tests ended early\nit: 5 passed, 1 failed\n", 1)], ("it: 5 passed, 1 failed", 1, [""]))

    def test_no_count_is_a_failure(self):
        for text, status in (("ok\n", 0), ("it: 5 passed, 0 failed\n", 3), ("it: 5 passed, 1 failed\n", 0)):
            self.check([(text, status)], ("again: no count at the end, or another status than it tells", 1, [""]))


if __name__ == "__main__":
    unittest.main()
