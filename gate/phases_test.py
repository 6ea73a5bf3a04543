"""Tries phases.py with commands that stand in for real ones: what it counts, and how it says what failed."""
import contextlib
import io
import os
import subprocess
import sys
import time
import unittest

sys.path.insert(0, os.path.dirname(os.path.abspath(__file__)))
import phases
from phases import Phase, Step


def lines_of(*all_phases, words=()):
    """What the phases print besides the output of their commands, and the exit status."""
    printed = io.TextIOWrapper(io.BytesIO(), write_through=True)
    with contextlib.redirect_stdout(printed):
        status = phases.pass_all(all_phases, words)
    return printed.buffer.getvalue().decode().splitlines(), status


def phase(*steps, name="one", minutes=1.0, stands_on=()):
    """A phase of these steps."""
    return Phase(name, minutes, stands_on, steps)


class Counting(unittest.TestCase):
    """The last line and the exit status."""

    def check(self, wanted, *steps, status=1, minutes=1.0):
        lines, found = lines_of(phase(*steps, minutes=minutes))
        self.assertEqual((lines[-1], found), (wanted, status), "\n".join(lines))
        return lines[-2]

    def test_counts_of_phases_are_added(self):
        lines, status = lines_of(phase(Step("echo 3 passed, 0 failed", "")),
                                 phase(Step("echo two: 40 passed, 0 failed", "two: "), name="two"))
        self.assertEqual((lines[-1], status), ("43 passed, 0 failed", 0))
        self.assertEqual(lines[-4], "phase     minutes  result")
        self.assertRegex(lines[-3], r"^one +0\.\d  3 passed, 0 failed$")
        self.assertRegex(lines[-2], r"^two +0\.\d  40 passed, 0 failed$")

    def test_later_phases_run_after_one_that_failed(self):
        lines, status = lines_of(phase(Step("echo 3 passed, 2 failed; exit 1", "")), phase(Step("echo 4 passed, 0 failed", "")))
        self.assertEqual((lines[-1], status), ("7 passed, 2 failed", 1))

    def test_lanes_go_side_by_side_and_their_lines_say_whose_they_are(self):
        begin = time.monotonic()
        lines, status = lines_of(phase(Step("sleep 2; echo 3 passed, 0 failed", "")),
                                 phase(Step("sleep 1; echo 40 passed, 1 failed", ""), name="two")._replace(beside=True),
                                 phase(Step("sleep 1; echo 500 passed, 0 failed", ""), name="three"))
        self.assertLess(time.monotonic() - begin, 3.9)
        self.assertEqual((lines[-1], status), ("543 passed, 1 failed", 1))
        self.assertLess({"one: 3 passed, 0 failed", "two: 40 passed, 1 failed", "three: 500 passed, 0 failed"}, set(lines))
        self.assertEqual([line.split()[0] for line in lines[-4:-1]], ["one", "two", "three"])
        self.assertLess(lines.index("two: 40 passed, 1 failed"), lines.index("== three: at most 1 minutes"))

    def test_a_phase_waits_for_its_line(self):
        lines, status = lines_of(phase(Step("sleep 1; echo built it; sleep 2; echo 3 passed, 0 failed", "")),
                                 phase(Step("echo 40 passed, 0 failed", ""), name="two")._replace(beside=True, after=rb"built \w"))
        self.assertEqual((lines[-1], status), ("43 passed, 0 failed", 0))
        order = [lines.index(it) for it in ("one: built it", "== two: at most 1 minutes", "two: 40 passed, 0 failed", "one: 3 passed, 0 failed")]
        self.assertEqual(order, sorted(order))

    def test_a_phase_whose_line_does_not_come_waits_for_the_end_of_the_first_lane(self):
        two = phase(Step("echo 40 passed, 0 failed", ""), name="two", stands_on=("gate/no_such_*",))._replace(beside=True, after=b"built")
        lines, status = lines_of(phase(Step("sleep 1; echo not built; echo 3 passed, 2 failed", "")), two)
        self.assertEqual((lines[-1], status), ("3 passed, 3 failed", 1))
        self.assertLess(lines.index("one: 3 passed, 2 failed"), lines.index("== two: at most 1 minutes"))

    def test_a_part_alone_waits_for_nothing(self):
        lines, status = lines_of(phase(Step("echo 3 passed, 0 failed", ""))._replace(beside=True, after=b"built"))
        self.assertEqual((lines[-1], status), ("3 passed, 0 failed", 0))

    def test_a_count_of_failures_counts_at_status_0(self):
        self.check("3 passed, 2 failed", Step("echo 3 passed, 2 failed", ""))

    def test_no_count_is_one_failure(self):
        self.check("0 passed, 1 failed", Step("echo fine", ""))

    def test_a_count_that_is_not_last_is_none(self):
        self.check("0 passed, 1 failed", Step("echo 3 passed, 0 failed; echo more", ""))

    def test_the_count_of_another_is_none(self):
        self.check("0 passed, 1 failed", Step("echo two: 3 passed, 0 failed", "one: "))

    def test_a_count_of_nothing_is_one_failure(self):
        self.check("0 passed, 1 failed", Step("echo 0 passed, 0 failed", ""))

    def test_a_status_with_no_failure_is_one(self):
        self.check("3 passed, 1 failed", Step("echo 3 passed, 0 failed; exit 4", ""))

    def test_a_killed_command_is_one_failure(self):
        self.check("3 passed, 1 failed", Step("echo 3 passed, 0 failed; kill -KILL $$", ""))

    def test_what_counts_nothing_fails_by_its_status(self):
        self.check("3 passed, 0 failed", Step("true"), Step("echo 3 passed, 0 failed", ""), status=0)
        row = self.check("3 passed, 1 failed", Step("exit 5"), Step("echo 3 passed, 0 failed", ""))
        self.assertIn("'exit 5' ended with status 5", row)

    def test_blank_lines_and_standard_error_come_after_a_count(self):
        self.check("3 passed, 0 failed", Step("echo 3 passed, 0 failed; echo; echo noise >&2", ""), status=0)

    def test_what_failed_is_said_again_before_the_table(self):
        lines, _ = lines_of(phase(Step("echo FAIL it is cold; echo ok FAIL; echo it.edit: NOT REFUSED: why; echo 3 passed, 2 failed", "")),
                            phase(Step("echo FAILED: a case; echo 4 passed, 1 failed", ""), name="two")._replace(beside=True))
        end = lines.index("phase     minutes  result")
        self.assertEqual(lines[end - 5], "")
        self.assertEqual(set(lines[end - 4:end - 1]), {"one: FAIL it is cold", "one: it.edit: NOT REFUSED: why", "two: FAILED: a case"})
        self.assertEqual(lines[end - 1], "")

    def test_of_many_failures_the_first_are_said_again(self):
        lines, _ = lines_of(phase(Step("for number in $(seq 60); do echo FAIL $number; done; echo 3 passed, 60 failed", "")))
        self.assertEqual((lines.count("FAIL 50"), lines.count("FAIL 51")), (2, 1))

    def test_where_nothing_failed_nothing_is_said_again(self):
        lines, _ = lines_of(phase(Step("echo 3 passed, 0 failed", "")))
        self.assertEqual(lines[-4:-2], ["", "phase     minutes  result"])


class Ending(unittest.TestCase):
    """Time limits, and what is missing."""

    def test_a_phase_ends_at_its_limit(self):
        begin = time.monotonic()
        lines, status = lines_of(phase(Step("echo 3 passed, 0 failed", ""), Step("sleep 60 | cat"), Step("echo never; exit 1"), minutes=0.01),
                                 phase(Step("echo 4 passed, 0 failed", "")))
        self.assertEqual((lines[-1], status), ("7 passed, 1 failed", 1))
        self.assertIn("'sleep 60 | cat' was ended: the phase has 0.01 minutes", lines[-3])
        self.assertNotIn("never", lines)
        self.assertLess(time.monotonic() - begin, 30)

    def test_what_is_left_running_is_ended_and_not_waited_for(self):
        begin = time.monotonic()
        lines, status = lines_of(phase(Step("sleep 61 & sleep 62 & echo 3 passed, 0 failed", "")))
        self.assertEqual((lines[-1], status), ("3 passed, 0 failed", 0))
        self.assertLess(time.monotonic() - begin, 30)

    def test_what_runs_side_by_side_is_ended_together(self):
        begin = time.monotonic()
        script = """if True:
            import sys
            import phases
            steps = phases.Step("echo begun; sleep 63 & sleep 64"), phases.Step("echo never")
            phases.PHASES = tuple(phases.Phase(it, 1.0, (), steps, it == "two") for it in ("one", "two"))
            sys.exit(phases.main())
        """
        process = subprocess.Popen([sys.executable, "-c", script], cwd=os.path.dirname(phases.__file__),
                                   stdout=subprocess.PIPE, text=True)
        for _ in range(4):  # both phases have begun, and so have their commands
            process.stdout.readline()
        process.terminate()
        rest = process.communicate(timeout=30)[0]
        self.assertEqual((process.returncode, "never" in rest), (1, False))
        self.assertLess(time.monotonic() - begin, 25)

    def test_a_phase_whose_ground_is_missing_fails(self):
        lines, status = lines_of(phase(Step("echo 3 passed, 0 failed", ""), stands_on=("gate/phases.py", "gate/no_such_*")))
        self.assertEqual((lines[-1], status), ("0 passed, 1 failed", 1))
        self.assertIn("left out: there is no gate/no_such_*", lines[-2])

    def test_words_go_to_the_last_command(self):
        lines, _ = lines_of(phase(Step("echo first"), Step("echo 3 passed, 0 failed:", "")), words=("a b", "c"))
        self.assertIn("3 passed, 0 failed: a b c", lines)

    def test_a_part_that_is_none_is_refused(self):
        printed = io.StringIO()
        with contextlib.redirect_stdout(printed):
            self.assertEqual(phases.main("no_such_part"), 2)
        self.assertEqual(printed.getvalue().splitlines()[-1], "0 passed, 1 failed")


if __name__ == "__main__":
    unittest.main()
