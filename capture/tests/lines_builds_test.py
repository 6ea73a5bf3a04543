"""Tests of how leak_lines reads builds from a log, and of how it opens files: only regular ones, and none outside of a
root."""
import os
import sys
import tempfile
import unittest

sys.path.insert(0, os.path.join(os.path.dirname(os.path.abspath(__file__)), ".."))
from lines import builds, opened, sources  # noqa: E402


class Folder(unittest.TestCase):
    def setUp(self):
        folder = tempfile.TemporaryDirectory()
        self.addCleanup(folder.cleanup)
        self.folder = folder.name

    def write(self, name, content):
        path = os.path.join(self.folder, name)
        os.makedirs(os.path.dirname(path), exist_ok=True)
        with open(path, "wb") as file:
            file.write(content)
        return path


class Log(Folder):
    def read(self, content):
        return builds.read(self.write("log", content))

    def test_build_ids_by_path(self):
        log = (b"= leak_log files\n= leak_log file ab01 /a b\n= leak_log file - /c\n@ x + 0x10 0x8\n"
               b"= leak_log file cd02 /a b\n")
        self.assertEqual(self.read(log)[:2], (True, {"/a b": {"ab01", "cd02"}, "/c": {""}}))
        self.assertEqual(self.read(b"= leak_log file ? /a\n").ids, {"/a": {"?"}})

    def test_what_tells_no_build(self):
        for log in (b"", b"= Start\n@ a + 0x10 0x8\n", b"@ = leak_log files\n", b"= leak_log file ab01 /a",
                    b"= leak_log file AB /a\n",
                    b"= leak_log file ab01\n", b"= leak_log file ab01 \n", b"x= leak_log file ab01 /a\n",
                    b"= leak_log file abc"):
            self.assertEqual(self.read(log), builds.NONE, log)

    def test_lines_are_whole_wherever_the_log_is_cut(self):
        most, builds.PART = builds.PART, 64
        self.addCleanup(setattr, builds, "PART", most)
        for before in range(130):
            log = b"x" * before + b"\n= leak_log files\n= leak_log file ab01 /a\n" + b"y" * 200 + b"= leak_log file cd02 /b\n"
            self.assertEqual(self.read(log)[:2], (True, {"/a": {"ab01"}}), before)

    def test_only_so_many_files(self):
        log = b"= leak_log files\n" + b"".join(b"= leak_log file ab %d\n" % it for it in range(builds.MOST_FILES + 9))
        self.assertEqual(len(self.read(log).ids), builds.MOST_FILES)

    def test_a_queue_is_no_log(self):
        path = os.path.join(self.folder, "queue")
        os.mkfifo(path)
        with self.assertRaises(OSError):
            builds.read(path)


class Opened(Folder):
    def below(self, path):
        try:
            with opened.open_below(os.path.join(self.folder, "root"), path) as file:
                return file.read(0, 9)
        except OSError:
            return None

    def test_links_stay_below_the_root(self):
        self.write("root/lib/file", b"inside")
        self.write("outside", b"outside")
        root = os.path.join(self.folder, "root")
        for name, target in (("absolute", "/lib/file"), ("relative", "lib/file"), ("up", "../../../lib/file"),
                             ("out", "../outside"),
                             ("host", os.path.join(self.folder, "outside")), ("folder", "/lib/"), ("parent", ".."),
                             ("self", "self"),
                             ("chain", "absolute"), ("two", "/folder/../lib/./file")):
            os.symlink(target, os.path.join(root, name))
        for path, content in (("/lib/file", b"inside"), ("absolute", b"inside"), ("/relative", b"inside"),
                              ("/up", b"inside"),
                              ("/chain", b"inside"), ("/two", b"inside"), ("/folder/file", b"inside"),
                              ("/../../lib/file", b"inside"),
                              ("/parent/parent/lib/file", b"inside"), ("/out", None), ("/host", None),
                              ("/../outside", None),
                              ("/parent/outside", None), ("/self", None), ("/lib/file/x", None), ("/none", None),
                              ("/lib", None), ("", None)):
            self.assertEqual(self.below(path), content, path)

    def test_a_long_path_or_many_links_are_refused(self):
        self.write("root/x", b"x")
        self.assertEqual(self.below("/" + "./" * 2047 + "x"), b"x")
        self.assertIsNone(self.below("/" + "./" * 200000 + "x"))
        for number in range(50):
            os.symlink("x" if number == 0 else f"{number - 1}", os.path.join(self.folder, "root", str(number)))
        self.assertEqual((self.below("39"), self.below("49")), (b"x", None))

    def test_nothing_but_regular_files(self):
        os.makedirs(os.path.join(self.folder, "root"))
        os.mkfifo(os.path.join(self.folder, "root", "queue"))
        self.assertIsNone(self.below("/queue"))
        for path in ("/dev/zero", "/dev/null", self.folder, os.path.join(self.folder, "root", "queue")):
            with self.assertRaises(OSError):
                opened.open_here(path)

    def test_no_descriptor_is_left_open(self):
        self.write("root/lib/file", b"inside")
        before = os.listdir("/proc/self/fd")
        for path in ("/lib/file", "/lib/none", "/lib", "/../x"):
            self.below(path)
        self.assertEqual(os.listdir("/proc/self/fd"), before)


class Sources(unittest.TestCase):
    own = os.path.realpath(sys.executable)

    def problem(self, told, is_lenient=False):
        found = sources.Sources(told, (), is_lenient).find(self.own)
        if found.file is not None:
            found.file.close()
        return found.problem

    def test_a_file_must_be_the_only_build_that_ran(self):
        with opened.open_here(self.own) as file:
            own = sources.elf.loaded_build_id(file)
        for ids, problem in (({own}, "" if own else "build not known"), ({"ab"}, "another build"),
                             ({own, "ab"}, "another build")):
            self.assertEqual(self.problem(builds.Builds(True, {self.own: ids})), problem)
        for is_lenient, problem in ((False, "build not known"), (True, "")):
            self.assertEqual(self.problem(builds.Builds(True, {self.own: {"?"}}), is_lenient), problem)
        self.assertEqual([self.problem(builds.Builds(True, {}), it) for it in (False, True)], ["build not known", ""])
        self.assertEqual(self.problem(builds.NONE), "")

    def test_a_path_that_no_file_has(self):
        for path in ("/no/such/file", "a\0b", "", "/dev/zero"):
            self.assertEqual(sources.Sources().find(path), (None, "file not found"))


if __name__ == "__main__":
    unittest.main()
