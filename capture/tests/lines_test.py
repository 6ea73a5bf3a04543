"""Tests of the parts of leak_lines. All values are by hand; the answers of binutils are as addr2line and nm of binutils
2.40 print them."""
import os
import sys
import unittest

sys.path.insert(0, os.path.join(os.path.dirname(os.path.abspath(__file__)), ".."))
from lines import command, frames, options, report, table, tools, units, views  # noqa: E402


class Units(unittest.TestCase):
    def test_sizes_have_two_decimals_and_three_digits_before(self):
        for number, text in ((0, "0 B"), (999, "999 B"), (1000, "1.00 kB"), (1005, "1.01 kB"), (1004, "1.00 kB"),
                             (999994, "999.99 kB"), (999995, "1.00 MB"), (26301912, "26.30 MB"), (10**15, "1.00 PB"),
                             (2**64 - 1, "18.45 EB"), (999999999999999999999, "1000.00 EB")):
            self.assertEqual(units.size(number), text)

    def test_growth_has_a_sign(self):
        self.assertEqual([units.signed_size(it) for it in (16, 0, -32, -2100)], ["+16 B", "0 B", "-32 B", "-2.10 kB"])

    def test_shares(self):
        self.assertEqual([units.share(*it) for it in ((26301912, 57000000), (1, 3), (-1, 4), (-1, 10000), (0, 5),
                                                      (5, None))],
                         ["46.1 %", "33.3 %", "-25.0 %", "0.0 %", "0.0 %", None])


class Report(unittest.TestCase):
    def read_row(self, line, heads=False):
        return report.row_of(line, report.patterns(heads))

    def test_each_kind_of_row(self):
        rows = {
            "holder 4 80 2 32 1 0x10100 x:[0x1]": ("holder", report.Row((4, 80, 2, 32, 1), "0x10100", "x:[0x1]")),
            "in 1 64 p": ("in", report.Row((1, 64), "", "p")),
            "by 3 192 0x5 n": ("by", report.Row((3, 192), "", "0x5 n")),
            "grew -32 1 32 0 0 0 0 a b": ("grew", report.Row((-32, 1, 32, 0, 0, 0, 0), "", "a b")),
            "caller 1 11 7 t": ("caller", report.Row((1, 11), "", "7 t")),
        }
        for line, row in rows.items():
            self.assertEqual(self.read_row(line), row)
        self.assertEqual(self.read_row("caller 1 11 7 t", True), ("caller", report.Row((1, 11, 7), "", "t")))

    def test_other_lines_are_no_rows(self):
        for line in ("", "holder", "holder 1 2 3", "grew - 1 1 1 1 1 1 t", "grew -0 1 1 1 1 1 1 t", "in 01 2 t",
                     "in 1 -2 t", "inn 1 2 t",
                     "in 1 2", "held 2 bytes 88", "asked 0x1 1 2 in 1 2 t"):
            self.assertEqual(self.read_row(line), ("", None))

    def test_a_share_is_of_marked_or_new_or_held_bytes_or_of_the_growth(self):
        for lines, kind, whole in ((["marked 1 bytes 96", "leaked 0 bytes 0"], "holder", 96),
                                   (["new 1 bytes 8", "marked 1 bytes 96"], "holder", 8),
                                   (["new 0 bytes 0", "marked 1 bytes 96"], "holder", None),
                                   (["held 1 bytes 5"], "by", 5), ([], "in", None),
                                   (["then 1 bytes 7", "now 1 bytes 9"], "grew", 2),
                                   (["then 1 bytes 9", "now 1 bytes 7"], "grew", None),
                                   (["now 1 bytes 7"], "grew", None)):
            self.assertEqual(report.whole(report.read(lines), kind), whole)

    def test_an_answer_without_rows_of_held_blocks_is_of_who_holds_them(self):
        asked = "asked 0x10100 1 8 ?"
        for lines, kind in (([asked, "held 1 bytes 8"], "by"), ([asked, "held 0 bytes 0"], "in"),
                            ([asked, "held 1 bytes 8", "in 1 8 ?"], "in"),
                            (["then 1 bytes 8", "held 1 bytes 8"], "grew"), ([asked, "leaked"], "")):
            self.assertEqual(report.kind_of(report.read(lines)), kind)

    def test_a_table_stands_where_its_first_row_stood(self):
        read = report.read(["a", "in 1 2 t", "b", "in 3 4 u"])
        self.assertEqual(read.parts, [report.Part("a", ""), report.Part("", "in"), report.Part("b", "")])
        self.assertEqual([row.text for row in read.rows["in"]], ["t", "u"])


class Views(unittest.TestCase):
    def test_the_last_line_sums_what_adds_up(self):
        rows = {"caller": [(1, 2, 3), (10, 20, 30)], "holder": [(9, 1000, 2, 16, 0), (5, 80, 3, 24, 1)],
                "in": [(1, 64), (2, 936)],
                "by": [(3, 192), (1, 64)], "grew": [(16, 1, 32, 2, 48, 1, 16), (-48, 3, 96, 1, 48, 0, 0)]}
        wanted = {"caller": "and 2 more: 22 bytes, 11 blocks, 33 heads",
                  "holder": "and 2 more, none holds more than 1.00 kB: 40 B in 5 own blocks",
                  "in": "and 2 more: 1.00 kB in 3 blocks", "by": "and 2 more, none holds more than 192 B",
                  "grew": "and 2 more: -32 B, 3 blocks, 1 new"}
        for kind, numbers in rows.items():
            self.assertEqual(views.rest(kind, [report.Row(it, "", "t") for it in numbers]), wanted[kind])


class Table(unittest.TestCase):
    def test_a_column_that_nobody_tells_is_left_out(self):
        lines = table.lay_out(("a", "b"), [table.Entry([None, "17"], [("f", "x:1"), ("g", "x:2")])], "  ", True)
        self.assertEqual(lines, [" b  function  where", "17  f         x:1", "    g         x:2"])

    def test_a_long_name_widens_no_column(self):
        lines = table.lay_out(("a",), [table.Entry(["1"], [("f" * 61, "x"), ("g" * 9, "y")])], " ", True)
        self.assertEqual(lines, ["a  function   where", "1  " + "f" * 61 + "  x", "   " + "g" * 9 + "  y"])


class Frames(unittest.TestCase):
    def test_the_parts_of_a_frame(self):
        for text, parts in (("./a.out:(main+0x1c)[0x401136]", ("./a.out", "main+0x1c", 0x401136)),
                            ("a:[0x1]", ("a", "", 1)), ("[0x7f]", ("", "", 0x7f)),
                            ("a(b)(c)[0x2]", ("a(b)", "c", 2)), ("/x y:\"%s\\:[0x9]", ("/x y:\"%s\\", "", 9)),
                            ("size 24", ("", "", 0)),
                            ("a:[0x]", ("", "", 0)), ("a:[0x1] ", ("", "", 0))):
            self.assertEqual(frames.frame_of(text), frames.Frame(text, *parts))

    def test_the_call_is_before_the_address(self):
        self.assertEqual([frames.frame_of(it).call for it in ("a:[0x100]", "a:[0x0]")], [0xff, 0])

    def test_an_address_beside_a_name_is_no_offset(self):
        self.assertTrue(frames.is_in_file(frames.frame_of("a:(b+1)[0x100000000]")))
        self.assertFalse(frames.is_in_file(frames.frame_of("a:(b+1)[0x100000001]")))
        self.assertTrue(frames.is_in_file(frames.frame_of("a:[0x100000001]")))
        self.assertFalse(frames.is_in_file(frames.frame_of("[0x100]")))


def names_of(lines, symbols, calls, addresses):
    """The names of the file `lib`, as if addr2line and nm had printed these lines."""
    names = frames.Names(())
    names.lines["lib"] = tools.read_answers(lines, calls)
    names.symbols["lib"] = tools.read_symbols(symbols, calls, addresses)
    return names


class Names(unittest.TestCase):
    symbols = ["0000000000001000 0000000000000010 T begin@@V_1", "0000000000001040 0000000000000100 t outer()",
               "0000000000001080 0000000000000008 t inner", "0000000000002000 T sizeless", "                 U malloc",
               "0000000000003000 0000000000000020 V vtable for shapes::square",
               "0000000000003020 0000000000000008 D table"]

    def place(self, address, function, where="??:0", name=""):
        frame = frames.Frame(f"lib:[{address:#x}]", "lib", name, address)
        names = names_of([f"0x{frame.call:016x}", function, where], self.symbols, [frame.call], [address])
        return names.places(frame)

    def test_a_symbol_counts_where_it_has_the_address(self):
        self.assertEqual(self.place(0x1010, "begin@@V_1"), [("begin@@V_1", "lib:[0x1010]")])

    def test_the_nearest_symbol_does_not_count_past_its_end(self):
        self.assertEqual(self.place(0x1011, "begin@@V_1"), [("lib+0x1011", "lib:[0x1011]")])
        self.assertEqual(self.place(0x2010, "sizeless"), [("lib+0x2010", "lib:[0x2010]")])

    def test_then_the_name_in_the_log_does(self):
        self.assertEqual(self.place(0x1011, "begin", name="hidden+0x1"), [("hidden+0x1", "lib:[0x1011]")])

    def test_behind_an_inner_symbol_the_outer_one_has_the_address(self):
        self.assertEqual(self.place(0x1089, "inner")[0][0], "outer()")
        self.assertEqual(self.place(0x1088, "inner")[0][0], "inner")
        self.assertEqual(self.place(0x1088, "outer()")[0][0], "outer()")

    def test_a_name_with_a_line_stays_and_one_without_a_symbol_does_not(self):
        self.assertEqual(self.place(0x1011, "begin", "begin.c:7"), [("begin", "begin.c:7")])
        self.assertEqual(self.place(0x1011, "of_nothing")[0][0], "lib+0x1011")

    def test_an_object_before_is_no_function(self):
        self.assertEqual([self.place(it, "shapes::square")[0][0] for it in (0x3000, 0x3020, 0x3028)],
                         ["shapes::square", "table", "lib+0x3028"])

    def test_objects_and_classes(self):
        self.assertEqual([self.place(it, "??")[0][0] for it in (0x3010, 0x3020, 0x3027, 0x3028)],
                         ["shapes::square", "table", "table", "lib+0x3028"])

    def test_inlined_functions_come_first(self):
        names = names_of(["0x0000000000000fff", "in", "a.c:1 (discriminator 3)", "out", "a.c:9"], [], [0xfff], [0x1000])
        self.assertEqual(names.places(frames.frame_of("lib:[0x1000]")), [("^ in", "a.c:1"), ("out", "a.c:9")])

    def test_a_function_may_be_called_as_an_address(self):
        answers = tools.read_answers(["0x0000000000000001", "0x0000000000000002", "a:1", "0x0000000000000002", "f",
                                      "b:2"], [1, 2])
        self.assertEqual(answers, {1: [("0x0000000000000002", "a:1")], 2: [("f", "b:2")]})

    def test_answers_that_break_off(self):
        self.assertEqual(tools.read_answers(["0x0000000000000001", "f"], [1]), {})
        self.assertEqual(tools.read_answers([], [1]), {})


class Problems(unittest.TestCase):
    def test_a_row_says_when_its_file_is_not_there_or_no_program(self):
        for path, problem in (("/no/such/file", "file not found"), ("/dev/zero", "file not found"),
                              (os.path.abspath(__file__), "no ELF file")):
            text = f"{path}:[0x1]"
            names = frames.Names([frames.frame_of(text)])
            self.assertEqual(names.places(frames.frame_of(text)),
                             [(f"{os.path.basename(path)}+0x1", f"{text} ({problem})")])


class Command(unittest.TestCase):
    def test_words(self):
        for words, result in (([], (None, None)), (["r"], (None, "r")), (["-"], (None, None)),
                              (["-n", "20"], (20, None)),
                              (["-n20", "r"], (20, "r")), (["-n", "3", "--", "-n"], (3, "-n"))):
            asked = options.read(words)
            self.assertEqual((asked.most, asked.path), result)

    def test_what_is_refused(self):
        for words in (["-n"], ["-n", "0"], ["-n", "-1"], ["-n", "x"], ["-n", "\u0662"], ["-n", "1_0"], ["-n", " 1"],
                      ["-n", "9" * 19],
                      ["-x"], ["--help"], ["a", "b"]):
            with self.assertRaises(options.Refused):
                options.read(words)

    def test_nothing_is_lost_without_rows(self):
        lines = ["", "text with \udcff and \0", "caller x"]
        self.assertEqual(command.text_of(lines, 1), "\ntext with \\xff and \\x00\ncaller x\n")


if __name__ == "__main__":
    unittest.main()
