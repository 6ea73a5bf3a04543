"""Tests of the limits of tools that leak_lines runs, and of what it shows."""
import os
import subprocess
import sys
import tempfile
import time
import unittest
import unittest.mock

sys.path.insert(0, os.path.join(os.path.dirname(os.path.abspath(__file__)), ".."))
from lines import demangle, limited, opened, shown, tools  # noqa: E402

MIB = limited.MIB


def limits(memory=512 * MIB, seconds=60, clock=300, output=MIB):
    """Limits of a run."""
    return limited.Limits(memory, seconds, clock, output)


def run(command, *of):
    """The lines that it prints, and why it failed."""
    with limited.Running(["sh", "-c", command], *of) as running:
        lines = list(running.lines())
    return lines, running.why


class Limited(unittest.TestCase):
    def test_what_ends_well(self):
        self.assertEqual(run("printf 'a\\nb\\nc'; exit 1", limits()), (["a", "b"], None))

    def test_the_clock(self):
        begin = time.monotonic()
        self.assertEqual(run("echo a; exec sleep 600", limits(clock=5)), (["a"], "took more than 5 s"))
        self.assertLess(time.monotonic() - begin, 60)

    def test_the_processor(self):
        self.assertEqual(run("while :; do :; done", limits(seconds=1)), ([], "was ended by signal 24"))

    def test_the_output(self):
        lines, why = run("exec yes", limits())
        self.assertEqual(why, "printed more than 1 MB")
        self.assertLessEqual(len(lines), MIB // 2)

    def test_the_memory(self):
        lines, _ = run("exec head -c 200000000 /dev/zero | tail -n 1 | wc -c", limits(memory=64 * MIB))
        self.assertEqual(lines, ["0"])

    def test_a_line_that_is_too_long_is_unknown(self):
        long = limited.LONGEST_LINE
        command = "; ".join(f"head -c {size} /dev/zero | tr '\\0' x; echo" for size in (long, long + 1,
                                                                                        3 * long)) + "; echo a"
        self.assertEqual(run(command, limits())[0], ["x" * long, "??", "??", "a"])

    def test_no_variable_is_handed_on_by_which_files_are_found(self):
        os.environ["DEBUGINFOD_URLS"] = "http://127.0.0.1:9"
        self.addCleanup(os.environ.pop, "DEBUGINFOD_URLS")
        self.assertEqual({line.split("=")[0] for line in run("exec env", limits())[0]} - {"PWD", "OLDPWD", "SHLVL",
                                                                                          "_"}, {"PATH", "LC_ALL"})


class Tools(unittest.TestCase):
    def test_answers_of_elfutils(self):
        lines = ["0x0000000000000010", "inner inlined at /x/a.c:6:34 in outer", "/x/b.h:5:80", "outer", "/x/a.c:6:34",
                 "0x0000000000000020", "other", "??:0"]
        self.assertEqual(tools.read_answers(lines, [16, 32], tools.of_elfutils),
                         {16: [("inner", "/x/b.h:5"), ("outer", "/x/a.c:6")], 32: [("other", "??:0")]})

    def test_no_more_symbols_than_memory_has_room_for(self):
        most, tools.MOST_AROUND = tools.MOST_AROUND, 5
        self.addCleanup(setattr, tools, "MOST_AROUND", most)
        lines = [f"{1:016x} {9:016x} T f{number}" for number in range(9)]
        self.assertEqual(sum(map(len, tools.read_symbols(lines, [2, 3], []).around.values())), 5)

    def test_elfutils_and_binutils_are_asked(self):
        source = (b"static inline __attribute__((always_inline)) int in(int x) { return x * x; }\n"
                  b"int out(int x) { return in(x); }\n")
        with tempfile.TemporaryDirectory() as folder:
            os.chmod(folder, 0o755)
            path = os.path.join(folder, "x.so")
            subprocess.run(["gcc", "-g", "-O1", "-shared", "-fPIC", "-x", "c", "-", "-o", path], input=source,
                           check=True)
            symbols = subprocess.run(["nm", path], stdout=subprocess.PIPE, check=True).stdout
            address = next(int(line.split()[0], 16) for line in symbols.split(b"\n") if line.endswith(b" T out"))
            # binutils 2.40 tell the outer one twice
            for command, inlined in ((tools.LINES[0], "in"), (tools.LINES[1], "out")):
                with unittest.mock.patch.object(tools, "command_of", lambda _,
                                                command=command: command), opened.open_here(path) as file:
                    found = [name for name, _ in tools.ask_lines(file, [address])[address]]
                self.assertIn(found, ([inlined, "out"], ["in", "out"]), command)


class Demangled(unittest.TestCase):
    def test_names(self):
        names = demangle.Demangler()
        self.addCleanup(names.end)
        for name, wanted in (("_ZTVN6shapes6squareE", "vtable for shapes::square"), ("main", "main"),
                             ("_start", "_start"), ("", ""),
                             ("_ZN1aC1Ev.cold", "a::a() [clone .cold]"), ("_Zx\n", "_Zx\n"),
                             ("_Z" + "x" * 99999, "_Z" + "x" * 99999)):
            self.assertEqual(names.of(name), wanted)


class Shown(unittest.TestCase):
    def test_escapes(self):
        for text, wanted in (("plain é", "plain é"), ("\\", "\\\\"), ("a\x1b\x7f\n\r\t\0", "a\\x1b\\x7f\\n\\r\\t\\x00"),
                             ("\udcff\udc80", "\\xff\\x80"),
                             ("\x9b", "\\xc2\\x9b"), ("\u202e\u2028", "\\xe2\\x80\\xae\\xe2\\x80\\xa8"), ("", "")):
            self.assertEqual(shown.escaped(text), wanted)


if __name__ == "__main__":
    unittest.main()
