"""Tries passes.py with scripts in place of a program, and looks whether both cores of a process say the same of it."""
import contextlib
import io
import os
import random
import struct
import sys
import tempfile
import unittest
from collections import Counter
from unittest import mock

sys.path.insert(0, os.path.dirname(os.path.abspath(__file__)))
import passes
from layouts import orderly, unorderly
from random_process import random_process

HOLDS = 'cat "$2" "$3" > /dev/null'
PASSES = '{ head -c 64; cat "$3"; cat; } < "$2" > /dev/null'
NUMBERS = range(0, 24)


def rows_of(image):
    """The program headers of a core, each a list of type, flags, offset, address, file size and memory size."""
    count, = struct.unpack_from("<H", image, 56)
    if count == 0xFFFF:
        section, = struct.unpack_from("<Q", image, 40)
        count, = struct.unpack_from("<I", image, section + 44)
    table, = struct.unpack_from("<Q", image, 32)
    rows = [struct.unpack_from("<IIQQQQQQ", image, table + 56 * number) for number in range(count)]
    return [(kind, flags, offset, start, filesz, memsz) for kind, flags, offset, start, _, filesz, memsz, _ in rows]


def said_by(image):
    """What a core says of its process: of each header the bytes, and all but where they are."""
    return [(kind, flags, start, memsz, image[offset:offset + filesz])
            for kind, flags, offset, start, filesz, memsz in rows_of(image) if kind in (1, 4)]


def is_orderly(image):
    """Whether notes and table come before memory, and memory is in the order of its addresses, at multiples of 8."""
    rows = rows_of(image)
    memory = sorted((start, offset, filesz) for kind, _, offset, start, filesz, _ in rows if kind == 1 and filesz)
    table, = struct.unpack_from("<Q", image, 32)
    ends = [table + 56 * len(rows), *(offset + filesz for kind, _, offset, _, filesz, _ in rows if kind == 4)]
    ends.append(struct.unpack_from("<Q", image, 40)[0] + 64 if image[56:58] == b"\xff\xff" else 64)
    ascend = all(one[1] + one[2] <= other[1] for one, other in zip(memory, memory[1:]))
    head = (max(ends) + 7) // 8 * 8
    return ascend and all(offset >= head and offset % 8 == start % 8 for start, offset, _ in memory)


def found_by(body, seconds=10.0, numbers=NUMBERS):
    """What is wrong with a script, by task, and what the tasks showed."""
    with tempfile.TemporaryDirectory(prefix="passes-test-") as folder, mock.patch.object(passes, "SECONDS", seconds):
        path = os.path.join(folder, "program")
        with open(path, "w", encoding="utf-8") as file:
            file.write(f"#!/bin/sh\n{body}\n")
        os.chmod(path, 0o755)
        return [passes.run_task(path, number) for number in numbers]


class Cores(unittest.TestCase):
    """The two cores of a process."""

    def test_both_say_the_same_of_the_process(self):
        for number in range(300):
            rng = random.Random(number)
            process = random_process(rng)
            self.assertEqual(said_by(orderly(rng, process)[0]), said_by(unorderly(rng, process)[0]), number)

    def test_one_is_orderly_and_one_is_not(self):
        for number in range(300):
            rng = random.Random(number)
            process = random_process(rng)
            if process.is_sound:
                self.assertTrue(is_orderly(orderly(rng, process)[0]), number)
                image, has_memory = unorderly(rng, process)
                self.assertEqual(is_orderly(image), not has_memory, number)

    def test_a_number_has_one_task(self):
        for number in NUMBERS:
            one, other = passes.Task(number), passes.Task(number)
            self.assertEqual((one.options, one.log, one.images), (other.options, other.log, other.images))

    def test_steps_are_the_whole_core_in_small_pieces(self):
        for number in NUMBERS:
            image = passes.Task(number).images["orderly"]
            steps = passes.packets_of(random.Random(number), image)
            self.assertEqual(b"".join(steps), image)
            self.assertTrue(not image or len(steps[-1]) == 1 and len(steps) <= 256)


class Programs(unittest.TestCase):
    """What is said of programs."""

    def told(self, results, text):
        """Some task fails with this text."""
        self.assertTrue(any(text in line for _, _, found in results for line in found), results)

    def test_a_program_that_holds_all_cores_is_told(self):
        self.told(found_by(HOLDS, 0.3, range(8)), "a core was not passed")

    def test_a_program_that_passes_all_cores_is_told(self):
        self.told(found_by(PASSES, 0.3, range(8)), "a core was not held")

    def test_another_answer_by_a_pipe_is_told(self):
        with mock.patch.dict(passes.COMMANDS, one=False, holders=False):
            self.assertFalse([found for _, _, found in found_by(HOLDS) if found])
            rows = ("echo pipe", "stdout:"), ("echo pipe >&2", "stderr:"), ("exit 7", "status: wanted 0, got 7")
            for said, stream in rows:
                results = found_by(f'{HOLDS}; [ ! -p "$2" ] || {said}; exit 0')
                self.told(results, stream)
                self.assertTrue(all(found for _, _, found in results))

    def test_another_answer_by_the_layout_is_told(self):
        with mock.patch.dict(passes.COMMANDS, one=False, holders=False):
            results = found_by('cksum < "$2"; cat "$3" > /dev/null')
            whole = [passes.Task(number).is_same for number in NUMBERS]
            self.assertEqual([bool(found) for _, _, found in results], whole)

    def test_a_program_that_does_not_end_is_told(self):
        self.told(found_by("exec sleep 60", 0.2, range(2)), "did not end")

    def test_a_missing_program_is_a_failure(self):
        with contextlib.redirect_stdout(io.StringIO()):
            self.assertEqual(passes.run_all("/no/such/program", range(3)), (0, 1))

    def test_failures_come_to_an_end(self):
        with contextlib.redirect_stdout(io.StringIO()) as printed:
            self.assertEqual(passes.run_all("/bin/false", range(0)), (0, 0))
            self.assertEqual(passes.run_all("/bin/pwd", range(1000))[1], passes.MOST_FAILED)
        self.assertIn("FAILED: core", printed.getvalue())


class Counts(unittest.TestCase):
    """Cores that show too little."""

    def test_each_kind_must_be_there(self):
        seen = Counter({("one", kind): 100 for kind in ("cores", *passes.LEAST)})
        self.assertEqual(passes.lacks("program", seen), [])
        for kind in passes.LEAST:
            self.assertEqual(len(passes.lacks("program", Counter({**seen, ("one", kind): 1}))), 1, kind)

    def test_kinds_are_those_of_the_answer(self):
        task = mock.Mock(ways={"orderly": "passed", "unorderly": ""})
        report = b"marked 3 bytes 0\nleaked 0 bytes 0\n"
        for answer, kinds in (((b"marked 0 bytes 0\nleaked 2 bytes 9\n", b"", 1), {"passed", "leaked"}),
                              ((report, b"leak_find: warning: x\n", 0), {"passed", "marked", "warned"}),
                              ((b"", b"leak_find: x\n", 2), {"passed", "refused"})):
            self.assertEqual(passes.kinds_of(task, {("orderly", "file"): answer}), kinds)


if __name__ == "__main__":
    unittest.main()
