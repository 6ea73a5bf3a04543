#!/usr/bin/env python3
"""Tests of options.py by a little table, whose parts are written out here, and by copies of the files that it writes."""
import contextlib
import io
import os
import shutil
import sys
import tempfile
import unittest
from pathlib import Path

sys.path.insert(0, os.path.dirname(os.path.abspath(__file__)))
import option_help  # noqa: E402
import option_parts  # noqa: E402
import option_table  # noqa: E402
import options  # noqa: E402

TEXT = """# A comment.
program     leak_find
about       Finds.
order       --to --in

subcommand  a
about       Is a.
operand     CORE  A core

subcommand  b
about       Is b.
operand     CORE  A core
operand     LOG1  The log's

option      --in
of          a b
help        Takes all
means       takes all, not with `--to`
short       it's all: taken
chosen      chosen if it fits

option      --to N
of          a
help        Takes some, 1 to 9
default     4
means       takes some
more        But not more.
short       takes [some]
"""
SOURCE = """const IN: &str = "Takes all";
    "Finds." "Is a." "Is b." "A core" "The log's"
        .arg(flag(alloc, "in", IN))?
        .long("to")
        .value_name("N")
        .default_value("4")
        .value_parser(clap::value_parser!(u32).range(1..=9))
        .help("Takes some, 1 to 9")
"""
HELP = {"--help": "Finds.\n\nUsage: leak_find <COMMAND>\n\nCommands:\n  a     Is a.\n  b     Is b.\n"
                  "  help  Print this message or the help of the given subcommand(s)\n\n"
                  "Options:\n  -h, --help     Print help\n  -V, --version  Print version\n",
        "a --help": "Is a.\n\nUsage: leak_find a [OPTIONS] <CORE>\n\nArguments:\n  <CORE>  A core\n\n"
                    "Options:\n      --to <N>  Takes some, 1 to 9 [default: 4]\n      --in      Takes all\n  -h, --help    Print help\n",
        "b --help": "Is b.\n\nUsage: leak_find b [OPTIONS] <CORE> <LOG1>\n\nArguments:\n  <CORE>  A core\n  <LOG1>  The log's\n\n"
                    "Options:\n      --in    Takes all\n  -h, --help  Print help\n"}
TABLE = option_table.read(TEXT)


class Reading(unittest.TestCase):
    """Tables that are refused."""

    def test_what_is_refused(self):
        for old, new, told in (
                ("help        Takes all\n", "", r"--in: lacks \['help'\]"), ("chosen", "chose", r"has \['chose'\] more"),
                ("default     4", "of          b", "of is there twice"), ("--to --in", "--to", "`order`"), ("--to --in", "--to --in --on", "`order`"),
                ("--to N", "--in", "`order`"), ("a b", "a c", "no such subcommand: c"), ("subcommand  a", "command     a", "no record begins so"),
                ("program     leak_find\nabout       Finds.\norder       --to --in\n", "", "0 records of the program"),
                ("about       Finds.", "Finds.", "no field and its text: Finds.")):
            with self.subTest(told), self.assertRaisesRegex(option_table.Fault, told):
                option_table.read(TEXT.replace(old, new, 1))

    def test_the_table_of_the_repository(self):
        table = option_table.read()
        self.assertEqual(table.names(), ["one", "two", "why", "holders", "grow"])
        self.assertEqual(sum(bool(option.value) for option in table.options), 7)


class Parts(unittest.TestCase):
    """What is written by the little table."""

    def test_reference(self):
        self.assertEqual(option_parts.reference(TABLE), [
            "", "| Option | Meaning [default] |", "|---|---|", "| `--in` | takes all, not with `--to` |", "| `--to N` | takes some [4] |", "",
            "`a` takes all options. `b` takes only `--in`.", ""])

    def test_which_subcommands_take_which_options(self):
        more = TEXT.replace("--to --in", "--to --in --on --at") + "".join(
            f"\noption {name}\nof {of}\nhelp x\nmeans x\nshort x\n" for name, of in (("--on", "a b"), ("--at", "a b")))
        self.assertEqual(option_parts.taken(option_table.read(more)), "`a` takes all options. `b` takes all options but `--to`.")
        self.assertEqual(option_parts.taken(option_table.read(more.replace("of          a\n", "of a b\n"))), "`a` and `b` take all options.")

    def test_man_pages(self):
        self.assertEqual(option_parts.manual(TABLE), [
            r"\fBa\fR takes all options. \fBb\fR takes only \fB--in\fR.", ".TP", r"\fB--in\fR", r"Takes all, not with \fB--to\fR.",
            ".TP", r"\fB--to\fR \fIN\fR", "Takes some. But not more. [4]"])
        of_one = option_table.read(TEXT.replace("subcommand  a", "subcommand  one").replace("of          a", "of          one"))
        self.assertEqual(option_parts.passed_on(of_one), [".TP", r"\fB--in\fR", "Chosen if it fits.", ".TP", r"\fB--to\fR \fIN\fR", "Only if you name them."])
        self.assertEqual(option_parts.report_words(of_one)[2:4], ["find    --in             it's all: taken [chosen if it fits]",
                                                                  "find    --to N           takes [some] [4]"])

    def test_a_long_item_of_a_man_page_is_one_line_for_roff(self):
        option = TABLE.options[0]._replace(option="--" + "a" * 100)
        self.assertEqual(option_parts.tag([option, option]), [rf"\fB{option.name}\fR, " + "\\", rf"\fB{option.name}\fR"])

    def test_completions(self):
        self.assertEqual([line.strip() for line in option_parts.bash(TABLE) if "echo" in line],
                         ["a) echo '--in --to' ;;", "b) echo '--in' ;;", "--to) echo number ;;"])
        self.assertEqual(option_parts.zsh(TABLE), [
            "local -a _leak_of_a_b _leak_of_a", "local -a _leak_a _leak_b", "_leak_of_a_b=(", r"    '--in[it'\''s all\: taken]'", ")",
            "_leak_of_a=(", r"    '--to=[takes \[some\]]:1 to 9: '", ")", "_leak_a=($_leak_of_a_b $_leak_of_a)", "_leak_b=($_leak_of_a_b)"])


class Program(unittest.TestCase):
    """The source of the command line, and what a program prints as help."""

    def faults_of(self, helps):
        """The faults of a program that prints these texts."""
        with tempfile.TemporaryDirectory(prefix="options-test-") as folder:
            for words, text in helps.items():
                Path(folder, words).write_text(text, encoding="utf-8")
            program = Path(folder, "leak_find")
            program.write_text(f"#!/bin/sh\ncat '{folder}'/\"$*\"\n", encoding="utf-8")
            program.chmod(0o755)
            return [fault.replace(folder, "") for fault in option_help.program_faults(TABLE, str(program))]

    def test_its_help(self):
        self.assertEqual(self.faults_of(HELP), [])
        row = "      --in      Takes all\n"
        for old, new, told in ((row, row + "      --new     Is new\n", ["setup/options.txt lacks, of a --help:       --new     Is new"]),
                               (row, "", ["/leak_find a --help lacks:       --in      Takes all"]),
                               ("  -h, --help    Print help\n" + "", "\n  -h, --help    Print help\n", ["/leak_find a --help has other lines, or status 0"])):
            with self.subTest(told):
                self.assertEqual(self.faults_of({**HELP, "a --help": HELP["a --help"].replace(old, new)}), told)

    def test_it_is_called_by_its_usual_name(self):
        self.assertIn("setup/options.txt lacks, of --help: Usage: leak_find [ignored command line arguments]",
                      option_help.program_faults(TABLE, "/bin/true"))

    def test_its_source(self):
        self.assertEqual(option_help.source_faults(TABLE, SOURCE), [])
        for old, new in (('"Takes all"', '"Takes none"'), ('"in", IN', '"on", IN'), ('"4"', '"5"'), ("=9", "=8"), ("1..", "0.."), ("some, 1", "any, 1")):
            with self.subTest(new):
                self.assertEqual(len(option_help.source_faults(TABLE, SOURCE.replace(old, new))), 2)
        for old, new, told in (('.arg(flag(alloc, "in", IN))?\n', "", f"{option_help.SOURCE} lacks: ('--in'"), ('"Is b."', "", f"{option_help.SOURCE} lacks: Is b."),
                               ("\n", '\nflag(alloc, "new", IN)', f"setup/options.txt lacks, of {option_help.SOURCE}: ('--new'")):
            with self.subTest(told):
                found = option_help.source_faults(TABLE, SOURCE.replace(old, new, 1))
                self.assertEqual([fault[:len(told)] for fault in found], [told])


class Files(unittest.TestCase):
    """A copy of the files that have parts."""

    def setUp(self):
        self.top = Path(self.enterContext(tempfile.TemporaryDirectory(prefix="options-test-")))
        for path in (*option_parts.PARTS, option_help.SOURCE):
            (self.top / path).parent.mkdir(parents=True, exist_ok=True)
            shutil.copy(options.TOP / path, self.top / path)

    def printed(self, call, *words):
        """What a call prints, and what it gives."""
        text = io.StringIO()
        with contextlib.redirect_stdout(text):
            return call(*words, self.top), text.getvalue()

    def test_the_repository_is_as_its_table_says(self):
        self.assertEqual(self.printed(options.check, ()), (0, ""))

    def test_a_part_that_is_changed_by_hand_is_found_and_written_again(self):
        for path in option_parts.PARTS:
            with self.subTest(path):
                good = (self.top / path).read_text(encoding="utf-8")
                (self.top / path).write_text(good.replace("--skip-slack", "--skip-slacks", 1), encoding="utf-8")
                self.assertEqual(self.printed(options.check, ()),
                                 (1, f"options: {path} is not as setup/options.txt says: run setup/options.py --write\n"))
                self.assertEqual(self.printed(options.write)[1], f"wrote {path}\n")
                self.assertEqual((self.top / path).read_text(encoding="utf-8"), good)

    def test_a_new_flag_is_listed_in_each_file(self):
        text = option_table.TABLE.read_text(encoding="utf-8").replace(" --check", " --new --check", 1)
        table = option_table.read(text + "\noption --new\nof one two why holders\nhelp Is new\nmeans is new\nshort is new\n")
        changed = dict(options.changed_files(table, self.top))
        self.assertEqual({path for path, text in changed.items() if "--new" in text}, set(option_parts.PARTS))

    def test_a_file_without_its_part_is_refused(self):
        for path in option_parts.PARTS:
            good = (self.top / path).read_text(encoding="utf-8")
            for mark in ("begin", "end"):
                with self.subTest(path=path, mark=mark):
                    (self.top / path).write_text(good.replace(f"options.py: {mark}", "", 1), encoding="utf-8")
                    with self.assertRaisesRegex(option_table.Fault, path):
                        options.check((), self.top)
            (self.top / path).write_text(good, encoding="utf-8")

    def test_another_source_is_found(self):
        source = self.top / option_help.SOURCE
        source.write_text(source.read_text(encoding="utf-8").replace("Exit with status 3", "Exit with status 4"), encoding="utf-8")
        self.assertEqual(self.printed(options.check, ())[0], 1)


if __name__ == "__main__":
    unittest.main()
