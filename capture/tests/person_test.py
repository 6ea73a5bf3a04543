"""Tests of a report for a person: its sentence, what it warns of, its table, and where it is shown. All values are by
hand."""
import os
import pty
import re
import struct
import subprocess
import sys
import tempfile
import unittest

sys.path.insert(0, os.path.join(os.path.dirname(os.path.abspath(__file__)), ".."))
from lines import columns, logs, lost, paper, person, remarks, report, runs, sentences, units, what  # noqa: E402

LINES = os.path.join(os.path.dirname(os.path.abspath(__file__)), "..", "leak_lines")
COUNTS = {"blocks": {"blocks": 12, "bytes": 1728}, "leaked": {"blocks": 6, "bytes": 576}}
NONE_LOST = {**COUNTS, "leaked": {"blocks": 0, "bytes": 0}}
LIVING = runs.Run(process="4711")
REPORT = ["blocks 12 bytes 1728", "undumped 0", "unknown 0 displaced 0 torn 0", "marked 8 bytes 1444",
          "leaked 4 bytes 284", "heads 2",
          "caller 3 228 2 size 76", "caller 1 56 0 size 56", "leak 0x10 76 1 head size 76",
          "leak 0x100 76 2 head size 76",
          "leak 0x200 76 3 held size 76", "leak 0x300 56 4 held size 56"]
FACTS = ['text 0x10 4 "abcd"', "holds 0x100 2 bytes 132", "part 0x200 0x100", "part 0x300 0x100"]
HOSTILE = "a\x1b[2J\x07b\u202ec\\d\udcff"


def core_of(name):
    """A core whose note says that the process has this name and the number 99."""
    about = struct.pack("<24xi12x16s80x", 99, name)
    note = struct.pack("<III", 5, len(about), 3) + b"CORE\0\0\0\0" + about
    head = b"\x7fELF\x02\x01" + bytes(26) + struct.pack("<Q16xH6x", 64, 1)
    return head + struct.pack("<IIQQQQQQ", 4, 0, 120, 0, 0, len(note), 0, 0) + note


def written(folder, lines=REPORT, facts=FACTS, about=("process 4711",), name=b"leaky", log=("= Start",)):
    """Writes the files of a run into the folder, and gives the words for leak_lines."""
    files = {"d.report": lines, "d.what": facts, "d.about": about, "d.log": log}
    for end, text in files.items():
        with open(os.path.join(folder, end), "wb") as file:
            file.write("".join(line + "\n" for line in text).encode("utf-8", "surrogateescape"))
    with open(os.path.join(folder, "d.core"), "wb") as file:
        file.write(core_of(name))
    return ["--plain", os.path.join(folder, "d.about"), "--what", os.path.join(folder, "d.what"),
            os.path.join(folder, "d.report")]


def printed(**parts):
    """What leak_lines prints of such a run where it is no terminal."""
    with tempfile.TemporaryDirectory() as folder:
        return subprocess.run([LINES, *written(folder, **parts)], capture_output=True, text=True, check=True).stdout


def on_terminal(columns_there, **environment):
    """What it prints on a terminal of so many columns."""
    with tempfile.TemporaryDirectory() as folder:
        words = written(folder, about=["process 4711", "said leak_walk: " + "word " * 60])
        own, other = pty.openpty()
        size = subprocess.run(["stty", "cols", str(columns_there), "rows", "24"], stdin=other, check=True)
        assert size.returncode == 0
        subprocess.run([LINES, *words], stdout=other, stdin=subprocess.DEVNULL, check=True,
                       env={"PATH": os.environ["PATH"], "TERM": "xterm", **environment})
        os.close(other)
        text = b""
        try:
            while part := os.read(own, 65536):
                text += part
        except OSError:  # nobody has the other end any more
            pass
        os.close(own)
        return text.decode().replace("\r\n", "\n")


def literals(text, begin):
    """The string literals that follow each place where the text begins so, joined, with samples for what is put in."""
    for match in re.finditer(re.escape(begin) + r'((?:"(?:[^"\\]|\\.)*"(?:\s|PRIu64)*)+)', text):
        parts = re.findall(r'"((?:[^"\\]|\\.)*)"|(PRIu64)', match[1])
        joined = "".join("7" if number else part for part, number in parts).replace("\\n", "").replace("%7", "7")
        yield re.sub("%[-.0-9]*(?:s|[lz]*[udxf]|g)", lambda it: "x" if it[0].endswith("s") else "7", joined)


def said_by_programs():
    """A sample of each remark in the sources of leak_core, leak_walk, leak_log and leak_dump."""
    kit = os.path.dirname(LINES)
    folders = (("dump", "", 'fprintf(stderr, '), ("walk", "leak_walk: ", "warn("), ("heaps", "leak_walk: ", "warn("),
               ("log", "leak_log: ", "warn("))
    for folder, prefix, begin in folders:
        for name in sorted(os.listdir(os.path.join(kit, folder))):
            with open(os.path.join(kit, folder, name), encoding="utf-8") as file:
                yield from (prefix + it for it in literals(file.read(), begin) if (prefix + it).startswith("leak_"))
    with open(os.path.join(kit, "common", "undumped.c"), encoding="utf-8") as file:
        yield from ("leak_log: " + it for it in literals(file.read(), "warn("))
    with open(os.path.join(kit, "leak_dump"), encoding="utf-8") as file:
        yield from ("leak_dump: " + re.sub(r"\$[a-z_.]+", "x", it) for it in re.findall(r'say "([^"]*)"', file.read())
                    if "$lacks" not in it)
    by_both = "leak_dump: the blocks of x.log are by the heap in the core, and their callers by leak_trace's table, which "
    yield by_both + "began at 2026-01-01 10:00:00"
    yield by_both + "missed 7 blocks"


class Sentences(unittest.TestCase):
    """The first line."""

    def sentence(self, counts=COUNTS, tops=2, run=LIVING, effect=remarks.NOTE):
        return "leaky (pid 4711): " + sentences.leaks(counts, tops, run.has_two_moments, effect)

    def test_what_is_lost(self):
        self.assertEqual(self.sentence(),
                         "leaky (pid 4711): 12 blocks, 1.7 KB in use; 6 lost, 576 bytes, in 2 structures")

    def test_one_of_each(self):
        counts = {"blocks": {"blocks": 1, "bytes": 1}, "leaked": {"blocks": 1, "bytes": 1}}
        self.assertEqual(self.sentence(counts, 1),
                         "leaky (pid 4711): 1 block, 1 byte in use; 1 lost, 1 byte, in 1 structure")

    def test_what_is_not_known_is_left_out(self):
        self.assertNotIn("structure", self.sentence(tops=None))
        text = self.sentence(effect=remarks.LACKS)
        self.assertEqual(text, "leaky (pid 4711): 6 lost, 576 bytes, in 2 structures (of the blocks that could be "
                               "searched)")

    def test_an_incomplete_search_is_no_all_clear(self):
        self.assertIn("; none lost", self.sentence(NONE_LOST))
        self.assertIn("; none lost", self.sentence(NONE_LOST, effect=remarks.MISNAMES))
        for effect in (remarks.HIDES, remarks.LACKS):
            self.assertNotIn("none lost", self.sentence(NONE_LOST, effect=effect))
            self.assertIn("none found lost, but the search is not complete", self.sentence(NONE_LOST, effect=effect))

    def test_two_moments(self):
        for way in ("after", "attach"):
            self.assertIn("; 6 lost at both moments, 576 bytes", self.sentence(run=runs.Run(process="4711", way=way)))

    def test_no_block(self):
        counts = {"blocks": {"blocks": 0, "bytes": 0}, "leaked": {"blocks": 0, "bytes": 0}}
        self.assertEqual(self.sentence(counts), "leaky (pid 4711): no block in use")

    def test_sizes(self):
        for number, text in ((0, "0 bytes"), (999, "999 bytes"), (1000, "1.0 KB"), (1728, "1.7 KB"),
                             (999949, "999.9 KB"),
                             (999950, "1.0 MB"), (3400000, "3.4 MB"), (10**21, "1000.0 EB")):
            self.assertEqual(units.plain(number), text)


class Next(unittest.TestCase):
    """The line about what to do next."""

    def following(self, counts=COUNTS, kind=logs.Kind(allocators=("glibc",)), **run):
        return person.next_line(runs.Run(**run), kind, counts)

    def test_each_case(self):
        callers = logs.Kind(has_callers=True)
        for words, parts in (
                ("leak_report --attach 7 ", {"process": "7"}),
                ("leak_trace -d 8 PROGRAM", {"core": "c"}),
                ("leak_trace -d 8 PROGRAM", {"process": "7", "kind": logs.Kind(allocators=("jemalloc 5.3",))}),
                ("leak_report --after DIR 7 ", {"process": "7", "kind": callers}),
                ("leak_report --after kept 7 ", {"process": "7", "kind": callers, "kept": "kept"}),
                ("leak_report --after DIR 7 ",
                 {"process": "7", "kind": logs.Kind(allocators=("glibc",), is_static=True)}),
                ("leak_report --list 7 ", {"process": "7", "kind": callers, "way": "after"}),
                ("leak_report --list c ", {"core": "c", "kind": logs.Kind(allocators=("musl",))}),
                ("leak_report --attach --for 2h 7.", {"process": "7", "way": "attach"}),
                ("leak_report --grow 7 ", {"process": "7", "counts": NONE_LOST}),
                ("leak_report --html FILE c ", {"core": "c", "counts": NONE_LOST})):
            text = self.following(**parts)
            self.assertTrue(text.startswith("Next: ") and text.endswith("."), text)
            self.assertIn(words, text)

    def test_kinds_of_logs(self):
        glibc, heap, table = "= leak_log allocator glibc", "= leak_walk arena 0x10", "= leak_log moment 0x1 table 0x2"
        for lines, kind in (([glibc, heap], logs.Kind(False, ("glibc",))),
                            ([glibc, table], logs.Kind(True, ("glibc",))),
                            ([glibc, heap, "= leak_log names since 5 moment 0x1"], logs.Kind(True, ("glibc",))),
                            (["= Start"], logs.Kind(True)),
                            ([glibc, heap, "= leak_log program static"], logs.Kind(False, ("glibc",), True)),
                            (["= leak_log allocator jemalloc 5.3", "= leak_walk heap 0x9",
                              "= leak_log moment 0x9 table 0x1"],
                             logs.Kind(True, ("jemalloc 5.3",)))):
            with tempfile.NamedTemporaryFile("w", suffix=".log") as file:
                file.write("".join(line + "\n" for line in ["= Start", *lines]))
                file.flush()
                self.assertEqual(logs.read(file.name), kind, lines)


class Remarks(unittest.TestCase):
    """What the programs said."""

    def test_what_is_said_of_every_run_is_left_out(self):
        lines = ["leak_dump: there is no table by leak_trace: the blocks of dump.log are by the heap in the core",
                 "leak_walk: 12 blocks of 1728 bytes in use; 1 arenas; 3 free chunks of 135520 bytes",
                 "leak_what: 0 of 12 blocks have a type, by the debug information of 3 files",
                 "leak_core: process 9 was stopped for 15 ms",
                 "leak_report: leak_find one --skip-freed --skip-links --all-memory",
                 "leak_dump: the blocks of d.log are by leak_trace's table",
                 "leak_attach: process 9 was stopped for 2 ms, and its blocks have callers from now on"]
        self.assertEqual(remarks.read(lines, {"undumped": 0, "torn": 0}), remarks.Remarks([], remarks.NOTE, [15, 2]))

    def test_each_once_in_plain_words(self):
        line = "leak_walk: undumped: 40960 bytes of /x/a: shared with the file, or it can't be read"
        found = remarks.read([line, line], {"undumped": 40960})
        self.assertEqual((len(found.warnings), found.effect), (1, remarks.MISNAMES))
        self.assertTrue(found.warnings[0].startswith("Warning: The dump lacks 40960 bytes of /x/a (shared with the file"))

    def test_what_the_report_counts(self):
        found = remarks.read([], {"undumped": 4096, "unknown": 2, "displaced": 1, "torn": 1, "misfits": 3})
        self.assertEqual([re.sub("[^0-9]", "", it) for it in found.warnings], ["4096", "2", "1", "", "3"])
        self.assertEqual(found.effect, remarks.HIDES)
        line = ("leak_find: warning: input 1: 3 of 12 live blocks have no chunk of their size in use in the core: the log "
                "is of another moment, or of another process")
        self.assertEqual(len(remarks.read([line], {"misfits": 3}).warnings), 1)

    def test_what_nobody_knows_is_a_warning(self):
        found = remarks.read(["leak_walk: something new happened"], {})
        self.assertEqual(found, remarks.Remarks(["Warning: Something new happened."], remarks.LACKS, []))
        self.assertEqual(remarks.read(["leak_lines: no names for x"], {}).effect, remarks.NOTE)

    def test_all_that_the_programs_say_is_known(self):
        found = list(said_by_programs())
        self.assertGreater(len(found), 30)
        self.assertEqual([line for line in found if remarks.known(line) is None], [])

    def test_what_makes_a_search_incomplete(self):
        for line in ("leak_walk: jemalloc 5.3: 2 things are as while a thread changes them, or damaged, the first: x",
                     "leak_walk: /x/libjemalloc.so.2: its blocks are not in the log",
                     "leak_walk: the blocks of x are not in the log: y",
                     "leak_walk: 3 free chunks have no size behind them, the first at 0x10: stopped inside malloc, or "
                     "damaged",
                     "leak_log: 5 blocks found no place in the table (it is full): leaks among them are not named"):
            self.assertEqual(remarks.read([line], {}).effect, remarks.LACKS, line)

    def test_warnings_are_before_notes(self):
        lines = ["leak_report: this leak_find was compiled without its proofs (x)",
                 "leak_walk: the blocks of x are not in the log: y"]
        self.assertEqual([it.split(":")[0] for it in remarks.read(lines, {}).warnings], ["Warning", "Note"])


class Tables(unittest.TestCase):
    """The table."""

    def test_rows_are_of_structures(self):
        groups = lost.groups_of(report.read(REPORT), what.read(FACTS, "x"))
        self.assertEqual([(lost.bytes_of(it), len(it.blocks), len(it.heads)) for it in groups],
                         [(208, 3, 1), (76, 1, 1)])
        self.assertEqual([lost.about_sizes(it) for it in groups], ["2 of 76 and 1 of 56 bytes", "1 block of 76 bytes"])

    def test_without_structures_rows_are_of_callers(self):
        groups = lost.groups_of(report.read(REPORT), None)
        self.assertEqual([(it.text, len(it.blocks), it.heads) for it in groups],
                         [("size 76", 3, None), ("size 56", 1, None)])

    def test_the_whole(self):
        self.assertEqual(printed().split("\n"), [
            "leaky (pid 4711): 12 blocks, 1.7 KB in use; 4 lost, 284 bytes, in 2 structures", "",
            "     lost  blocks  structures  what",
            "208 bytes       3           1  2 of 76 and 1 of 56 bytes",
            " 76 bytes       1           1  begins \"abcd\"",
            "                               1 block of 76 bytes", "",
            "Next: compare with a second dump: leak_report --keep DIR 4711, and some minutes later leak_report "
            "--after DIR "
            "4711 shows what is still lost.", ""])

    def test_the_list(self):
        text = printed(about=["process 4711", "list"])
        self.assertEqual(re.findall("^ *0x.*", text, re.MULTILINE),
                         ["0x10  76 bytes", "0x100  76 bytes", "  0x200  76 bytes", "  0x300  56 bytes"])

    def test_start_of_a_program_is_left_out(self):
        frames = [f"/x/app:({name}+1)[0x{i}]" for i,
                  name in enumerate(("f", "main", "__libc_start_call_main", "__libc_start_main", "_start"), 1)]
        rows = [f"caller 1 76 1 {' < '.join(frames)}", f"leak 0x10 76 1 head {' < '.join(frames)}"]
        text = printed(lines=REPORT[:4] + ["leaked 1 bytes 76", "heads 1"] + rows, facts=[])
        self.assertEqual(re.findall(r"(\w+)\+1", text), ["f", "f", "main", "main"])

    def test_a_column_without_text_is_left_out(self):
        sheet = paper.Paper()
        self.assertEqual(columns.lay_out(("a", "b"), [columns.Entry(["1", ""], [], ["x"])], sheet), ["a  what", "1  x"])
        self.assertEqual(columns.lay_out(("a",), [], sheet), [])


class Places(unittest.TestCase):
    """Terminals, and what is none."""

    def test_hostile_names(self):
        frame = f"/x/{HOSTILE}:({HOSTILE}+1)[0x1]"
        lines = REPORT[:4] + ["leaked 1 bytes 76", "heads 1", f"caller 1 76 1 {frame}", f"leak 0x10 76 1 head {frame}",
                              f"misfit 0x10 76 1 {frame}"]
        text = printed(lines=lines, facts=[f'text 0x10 4 "{HOSTILE}"', f"word 0x10 +0x8 {HOSTILE}"],
                       name=b"\x1b[2J\n\xff\\x",
                       about=["process 4711", "list", f"said leak_walk: undumped: 5 bytes of {HOSTILE}: why",
                              f"said odd {HOSTILE}"])
        self.assertEqual({it for it in text if not it.isprintable()}, {"\n"})
        self.assertIn("\\x1b[2J\\n\\xff\\\\x (pid 4711)", text)
        with tempfile.TemporaryDirectory() as folder:
            words = written(folder, lines=lines, name=b"</script>\x1b\xff",
                            about=["core </script>", "said odd </script>" + HOSTILE])
            page = os.path.join(folder, "page")
            subprocess.run([LINES, "--html", page, *words], check=True, stdout=subprocess.DEVNULL)
            with open(page, encoding="utf-8") as file:
                text = file.read()
            self.assertEqual((text.count("</script>"), {it for it in text if not it.isprintable()}), (2, {"\n"}))
        odd = printed(about=[f"core {HOSTILE}", f"kept {HOSTILE}"], name=b"")
        self.assertEqual({it for it in odd if not it.isprintable()}, {"\n"})

    def test_a_terminal_has_its_width(self):
        for width in (40, 60, 100):
            text = re.sub("\x1b\\[[0-9;]*m", "", on_terminal(width))
            self.assertIn("in 2 structures", text.replace("\n  ", " "))
            self.assertLessEqual(max(map(len, text.split("\n"))), width)

    def test_colors_are_for_terminals_alone(self):
        self.assertIn("\x1b[", on_terminal(80))
        self.assertNotIn("\x1b", on_terminal(80, NO_COLOR="1"))
        self.assertNotIn("\x1b", on_terminal(80, TERM="dumb"))
        self.assertNotIn("\x1b", printed())
        self.assertIn("\x1b[", on_terminal(80, NO_COLOR=""))

    def test_elsewhere_nothing_is_cut(self):
        long = "/x/" + "d" * 300 + "/app:(" + "f" * 300 + "+1)[0x1]"
        text = printed(lines=REPORT[:4] + ["leaked 1 bytes 76", "heads 1", f"caller 1 76 1 {long}",
                                           f"leak 0x10 76 1 head {long}"])
        self.assertIn("f" * 300, text)
        self.assertIn("d" * 300, text)

    def test_wide_letters(self):
        self.assertEqual([paper.columns(it) for it in ("ab", "\u4e2d\u6587", "e\u0301")], [2, 4, 1])
        self.assertEqual((paper.cut("\u4e2d\u6587\u4e2d", 5), paper.cut_before("/a/b/c.c:12", 8)),
                         ("\u4e2d..", "..c.c:12"))
        self.assertEqual(paper.Paper(10).wrapped("one two three four"), ["one two", "  three", "  four"])

    def test_how_many_share_a_fact_is_never_cut(self):
        entry = columns.Entry(["1"], [], [("begins " + "x" * 200, ": 11 of 42")])
        for width in (100, 40, 30):
            lines = columns.lay_out(("lost",), [entry], paper.Paper(width))[1:]
            self.assertTrue("".join(lines).endswith("11 of 42"), lines)
            self.assertLessEqual(max(map(len, lines)), width)

    def test_no_report_is_refused(self):
        with tempfile.TemporaryDirectory() as folder:
            words = written(folder, lines=["leaked 0 bytes 0"])
            done = subprocess.run([LINES, *words], capture_output=True, text=True)
            self.assertEqual((done.returncode, done.stdout, done.stderr),
                             (2, "", "leak_lines: this is no report of leaks\n"))

    def test_words(self):
        for words in (["--plain", "a"], ["--plain", "a", "--json", "r"], ["--plain", "a", "--exit-code", "r"],
                      ["--plain", "a", "--since", "o", "r"]):
            done = subprocess.run([LINES, *words], capture_output=True, text=True, stdin=subprocess.DEVNULL)
            self.assertEqual((done.returncode, done.stdout, done.stderr[:6]), (2, "", "usage:"), words)


unittest.main()
