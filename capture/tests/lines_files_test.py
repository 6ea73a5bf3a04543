"""Tests of how files of a process are copied: none outside of the folder, by no link, and only those that ran."""
import os
import sys
import tempfile
import unittest

sys.path.insert(0, os.path.join(os.path.dirname(os.path.abspath(__file__)), ".."))
from lines import builds, elf, opened, processes  # noqa: E402


class Copies(unittest.TestCase):
    def setUp(self):
        folder = tempfile.TemporaryDirectory()
        self.addCleanup(folder.cleanup)
        self.folder = os.path.join(folder.name, "kept")
        os.mkdir(self.folder)
        self.source = os.path.join(folder.name, "source")
        with open(self.source, "wb") as file:
            file.write(b"content")

    def copy(self, path):
        with opened.open_here(self.source, path) as file:
            return processes.copy_file(file, self.folder)

    def test_a_file_is_at_its_path(self):
        self.assertEqual(self.copy("/a/b/c d"), 7)
        with open(os.path.join(self.folder, "a/b/c d"), "rb") as file:
            self.assertEqual(file.read(), b"content")

    def test_no_path_leads_out(self):
        os.symlink("..", os.path.join(self.folder, "link"))
        os.symlink(os.path.join(os.path.dirname(self.folder), "made"), os.path.join(self.folder, "file"))
        for path in ("/../made", "/a/../../made", "/..", "/link/made", "/file"):
            with self.assertRaises(OSError):
                self.copy(path)
        self.assertEqual(sorted(os.listdir(os.path.dirname(self.folder))), ["kept", "source"])

    def test_nothing_is_written_over(self):
        self.copy("/a")
        with self.assertRaises(OSError):
            self.copy("/a")

    def test_a_file_that_is_too_large(self):
        most, processes.MOST_BYTES = processes.MOST_BYTES, 6
        self.addCleanup(setattr, processes, "MOST_BYTES", most)
        with self.assertRaises(OSError):
            self.copy("/a")


class Right(unittest.TestCase):
    def test_only_the_build_that_ran(self):
        process, path = processes.Process("self"), os.path.realpath(sys.executable)
        with opened.open_here(path) as file:
            own = elf.loaded_build_id(file)
        with processes.open_right(process, path, {own}) as file:
            self.assertEqual(file.path, path)
        self.assertIsNone(processes.open_right(process, path, {"ab"}))
        self.assertIsNone(processes.open_right(process, path, {own, "ab"}))
        self.assertIsNone(processes.open_right(process, "/no/such/file", {own}))

    def test_no_such_process(self):
        self.assertEqual(processes.Process("999999999").mapped("/x"), [])
        self.assertEqual(builds.NONE.ids, {})


if __name__ == "__main__":
    unittest.main()
