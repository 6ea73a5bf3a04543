"""Tests of leak_lines' options: suppressions, statuses, two reports compared, stacks for flame graphs, JSON. All values
are by hand."""
import io
import json
import os
import subprocess
import sys
import tempfile
import time
import unittest

sys.path.insert(0, os.path.join(os.path.dirname(os.path.abspath(__file__)), ".."))
# noqa: E402
from lines import callers, chains, document, folded, judging, options, places, progress, report, since, suppressions

LEAKS = ["blocks 3 bytes 30", "undumped 0", "unknown 0 displaced 0 torn 0", "marked 1 bytes 10", "leaked 2 bytes 20",
         "heads 1",
         "caller 1 11 1 /x/app:(begin+1c)[0x12]", "caller 1 9 0 /x/app:[0x99] < [0x7f0000001000]",
         "leak 0x10 11 1 head /x/app:(begin+1c)[0x12]"]
HOLDERS = ["marked 6 bytes 2500", "leaked 0 bytes 0", "holder 6 1250 3 72 0 0x10100 /x/app:[0x99]"]


def place(function, file="", line=0, module="/x/app", label=None):
    """A place of these parts."""
    return places.Place((function, file), function, file, line, module, 0x12, "text", label or function, False)


def caller(size, *frames, blocks=1):
    """A row of leaked blocks with these places."""
    return callers.Caller(report.Row((blocks, size, 0), "", "t"), list(frames))


def found_in(lines, *patterns):
    """The report and its callers, with these suppressions."""
    read = report.read(lines)
    return read, callers.name(read.rows, suppressions.Suppressions(patterns))


class Paths(unittest.TestCase):
    def test_a_path_is_sought_by_the_options_of_the_search(self):
        common = os.path.join(chains.HERE, "scripts", "common.sh")
        for remarks in ("", "= leak_log allocator jemalloc 5.3\n", "= leak_walk arena 0x10\n",
                        "= leak_log allocator jemalloc 5.3\n= leak_walk heap 0x10\n"):
            with self.subTest(remarks), tempfile.NamedTemporaryFile("w") as log:
                log.write(remarks + "+ 0x10 0x8\n")
                log.flush()
                command = ["sh", "-c", '. "$0" && fitting "$1" "" given', common, log.name]
                wanted = subprocess.run(command, capture_output=True, text=True, check=True).stdout.split()
                self.assertEqual(sorted(chains.options_for(log.name)), sorted(wanted))


class Words(unittest.TestCase):
    def test_options(self):
        plain = options.Options()
        for words, result in ((["--suppress", "a", "--suppress=b", "r"],
                               plain._replace(suppress=("a", "b"), is_judged=True, path="r")),
                              (["--exit-code"], plain._replace(is_judged=True)),
                              (["--folded"], plain._replace(form="folded")),
                              (["--json", "--json", "r"], plain._replace(form="json", path="r")),
                              (["--since=o", "--no-lines", "-n", "3", "n"], plain._replace(since="o", has_lines=False,
                                                                                           most=3, path="n")),
                              (["--since", "-", "n"], plain._replace(since="-", path="n"))):
            self.assertEqual(options.read(words), result)

    def test_what_is_refused(self):
        for words in (["--suppress"], ["--suppress="], ["--exit-code=1"], ["--json="], ["--folded", "--json"],
                      ["--since", "o", "--json", "n"], ["--no-lines"], ["--fold"], ["---"], ["--since", "o", "n", "m"]):
            with self.assertRaises(options.Refused, msg=words):
                options.read(words)


class Suppressions(unittest.TestCase):
    def test_patterns(self):
        for pattern, text, matches in (("oo", "foo", True), ("^oo", "foo", False), ("^fo", "foo", True),
                                       ("fo$", "foo", False),
                                       ("oo$", "foo", True), ("^f*o$", "from to", True), ("^f*x", "foo", False),
                                       ("a*b*c", "1a2b3c4", True),
                                       ("*", "x", True), ("a.c", "abc", False), ("(int)", "f(int)", True),
                                       ("o$", "foofoo", True),
                                       ("f^", "f^", True), ("oo$x", "foo", True), ("^", "x", True),
                                       ("a*c", "a\nc", True)):
            self.assertEqual(suppressions.Suppressions([pattern]).matches(text), matches, (pattern, text))

    def test_a_function_or_a_source_file_or_a_module_of_any_frame(self):
        stack = [place("inner", "/s/in.c", 7, "/x/lib.so"), place("main", "/s/app.c", 9)]
        for pattern, left_out in (("inner", True), ("^main$", True), ("in.c", True), ("lib.so$", True),
                                  ("^/x/app$", True), (":7", False),
                                  ("other", False)):
            self.assertEqual(suppressions.Suppressions(["none", pattern]).leaves_out(stack), left_out, pattern)

    def test_what_is_not_known_never_matches(self):
        self.assertFalse(suppressions.Suppressions(["*"]).leaves_out([place("", module="")]))
        self.assertFalse(suppressions.Suppressions([]).leaves_out([place("f")]))

    def test_lines(self):
        rules = suppressions.read_files([("a", ["# leak:x", "", "  leak:one \r"]), ("b", ["leak:two three"])])
        self.assertEqual([rules.matches(it) for it in ("one", "two three", "two", "x")], [True, True, False, False])

    def test_other_lines_are_refused(self):
        for line, said in (("race:x", "f:2: 'race:x' is no suppression"), ("leak", "f:2: 'leak' is no"),
                           ("leak:", "f:2: leak: without a pattern"), ("Leak:x", "f:2: 'Leak:x'"), ("leak :x", "f:2:")):
            with self.assertRaisesRegex(options.Refused, said):
                suppressions.read_files([("f", ["leak:a", line])])


class Statuses(unittest.TestCase):
    def test_a_leak_that_is_left_has_status_1(self):
        for patterns, status in (((), 1), (("begin",), 1), (("app",), 0)):
            self.assertEqual(judging.status_of(found_in(LEAKS, *patterns)[1]), status)

    def test_other_rows_have_status_0(self):
        self.assertEqual(judging.status_of(found_in(HOLDERS)[1]), 0)

    def test_whole_reports(self):
        for lines in (LEAKS, HOLDERS, ["asked 0x1 1 1 t", "leaked"], ["then 0 bytes 0", "now 0 bytes 0"],
                      ["leaked 0 bytes 0", "heads 0"]):
            judging.check_whole(report.read(lines))

    def test_what_is_no_whole_report_is_refused(self):
        for lines in ([], ["leak_find: refused"], LEAKS[:4], LEAKS[:5], LEAKS[:6], LEAKS[:7]):
            with self.assertRaises(options.Refused, msg=lines):
                judging.check_whole(report.read(lines))


class Since(unittest.TestCase):
    def states(self, old, new, has_lines=True):
        return [(it.state, it.size, it.places[0].function) for it in since.compare(old, new, has_lines)]

    def test_states_by_bytes(self):
        old = [caller(10, place("less")), caller(10, place("more")), caller(10, place("gone")),
               caller(10, place("same"))]
        new = [caller(15, place("more")), caller(30, place("new")), caller(4, place("less")),
               caller(10, place("same"), blocks=2)]
        self.assertEqual(self.states(old, new), [("new", 30, "new"), ("grown", 5, "more"), ("same", 0, "same"),
                                                 ("shrunk", -6, "less"),
                                                ("gone", -10, "gone")])

    def test_lines_and_names_of_files_count_and_folders_do_not(self):
        old = [caller(1, place("f", "/one/a.c", 7))]
        for file, line, state in (("/two/a.c", 7, "same"), ("/one/a.c", 8, "new"), ("/one/b.c", 7, "new")):
            self.assertEqual(self.states(old, [caller(1, place("f", file, line))])[0][0], state)
        self.assertEqual(self.states(old, [caller(1, place("f", "/one/b.c", 8))], False), [("same", 0, "f")])

    def test_the_whole_stack_counts(self):
        self.assertEqual(len(self.states([caller(1, place("f"), place("g"))], [caller(1, place("f"), place("h"))])), 2)

    def test_rows_of_one_stack_are_one(self):
        self.assertEqual(self.states([caller(1, place("f")), caller(2, place("f"))], [caller(3, place("f"))]),
                         [("same", 0, "f")])

    def test_a_block_of_no_bytes_is_new_and_gone(self):
        self.assertEqual(self.states([], [caller(0, place("f"))]), [("new", 0, "f")])
        self.assertEqual(self.states([caller(0, place("f"))], []), [("gone", 0, "f")])

    def test_kinds(self):
        leaks, holders, none = report.read(LEAKS), report.read(HOLDERS), report.read(["leaked 0 bytes 0", "heads 0"])
        self.assertEqual([since.kind_of(it) for it in ([leaks, none], [none, holders], [none, none])],
                         ["caller", "holder", "caller"])
        for reports in ([leaks, holders], [leaks, report.read([])], [report.read(["grew 1 0 0 1 1 1 1 t"])] * 2):
            with self.assertRaises(options.Refused):
                since.kind_of(reports)

    def test_the_status_is_of_what_is_new_or_grew(self):
        leaks, less, other = found_in(LEAKS)[1], found_in(LEAKS, "begin")[1], found_in(HOLDERS)[1]
        for pair, status in (((leaks, leaks), 0), ((leaks, less), 0), ((less, leaks), 1), ((other, other), 0)):
            self.assertEqual(since.status_of(pair, options.Options()), status)


class Folded(unittest.TestCase):
    def test_the_outermost_frame_is_first(self):
        self.assertEqual(folded.lines_of([caller(7, place("inner"), place("main"))], "caller"), ["main;inner 7"])

    def test_stacks_are_summed_and_those_without_bytes_left_out(self):
        rows = [caller(7, place("f")), caller(0, place("g")), caller(2, place("f"))]
        self.assertEqual(folded.lines_of(rows, "caller"), ["f 9"])

    def test_what_shrank_is_left_out(self):
        rows = [callers.Caller(report.Row((it, 1, 1, 1, 1, 1, 1), "", "t"), [place(f"f{it}")]) for it in (5, -5)]
        self.assertEqual(folded.lines_of(rows, "grew"), ["f5 5"])

    def test_names_part_no_stack(self):
        self.assertEqual(folded.lines_of([caller(7, place("a;b 3"), place("", label="app+0x1"))], "caller"),
                         ["app+0x1;a:b 3 7"])
        self.assertEqual(folded.stack_of([places.Place(("", ""), "", "", 0, "", 0, "", "", False)]), "?")


class Document(unittest.TestCase):
    def document(self, lines, *patterns):
        return json.loads("".join(document.lines_of(*found_in(lines, *patterns))))

    def test_leaks(self):
        read = self.document(LEAKS)
        self.assertEqual((read["version"], read["report"]), (1, "leaks"))
        self.assertEqual(read["counts"], {"blocks": {"blocks": 3, "bytes": 30}, "undumped": 0, "unknown": 0,
                                          "displaced": 0, "torn": 0,
                                          "marked": {"blocks": 1, "bytes": 10}, "leaked": {"blocks": 2, "bytes": 20},
                                          "heads": 1})
        self.assertEqual(read["suppressed"], {"blocks": 0, "bytes": 0})
        first, second = read["callers"]
        self.assertEqual(first, {"blocks": 1, "bytes": 11, "heads": 1, "frames": [
            {"function": "begin", "file": None, "line": None, "module": "/x/app", "offset": 18, "inlined": False,
             "text": "/x/app:(begin+1c)[0x12]", "unnamed": "file not found"}]})
        self.assertEqual([it["module"] for it in second["frames"]], ["/x/app", None])
        self.assertEqual([it["unnamed"] for it in second["frames"]], ["file not found", None])

    def test_what_is_suppressed_is_counted(self):
        read = self.document(LEAKS, "begin")
        self.assertEqual((read["suppressed"], len(read["callers"])), ({"blocks": 1, "bytes": 11}, 1))

    def test_other_kinds(self):
        holder = self.document(HOLDERS)
        self.assertEqual(holder["report"], "holders")
        self.assertEqual({name: it for name, it in holder["callers"][0].items() if name != "frames"},
                         {"blocks": 6, "bytes": 1250, "own_blocks": 3, "own_bytes": 72, "within": 0,
                          "address": "0x10100"})
        grew = self.document(["then 1 bytes 32", "now 2 bytes 48", "new 1 bytes 16", "grew 16 1 32 2 48 1 16 t"])
        self.assertEqual(grew["report"], "grow")
        self.assertEqual({name: it for name, it in grew["callers"][0].items() if name != "frames"},
                         {"growth": 16, "blocks_then": 1, "bytes_then": 32, "blocks": 2, "bytes": 48, "new_blocks": 1,
                          "new_bytes": 16})

    def test_reports_without_rows(self):
        for lines, kind in ((["leaked 0 bytes 0", "heads 0"], "leaks"), (["then 0 bytes 0"], "grow"),
                            (["leaked 0 bytes 0"], "holders")):
            self.assertEqual((self.document(lines)["report"], self.document(lines)["callers"]), (kind, []))

    def test_bytes_that_are_no_text(self):
        self.assertEqual(self.document(["caller 1 2 \udcff\"\u2028"])["callers"][0]["frames"][0]["text"],
                         "\ufffd\"\u2028")


class Terminal(io.StringIO):
    """A stream that is a terminal."""

    def isatty(self):
        return True


class Progress(unittest.TestCase):
    def said(self, stream, delay, awaited=None):
        """What a task says until `awaited` is said, a minute at most, or in a tenth of a second."""
        end = time.monotonic() + (60 if awaited else 0)
        with progress.Progress(stream, delay, 0.01) as shown:
            shown.begin("asks", 7)
            shown.done = 3
            time.sleep(0.1)
            while awaited and awaited not in stream.getvalue() and time.monotonic() < end:
                time.sleep(0.01)
        return stream.getvalue()

    def test_a_terminal_is_told_and_cleared(self):
        said = self.said(Terminal(), 0.01, "3 of 7")
        self.assertRegex(said, r"\A(\r\x1b\[Kleak_lines: (reads|asks: 0 of 7))*"
                               r"(\r\x1b\[Kleak_lines: asks: 3 of 7)+\r\x1b\[K\Z")

    def test_nothing_is_said_of_what_is_soon_done_nor_elsewhere(self):
        self.assertEqual(self.said(Terminal(), 60), "")
        self.assertEqual(self.said(io.StringIO(), 0.01), "")

    def test_a_task_that_is_not_counted(self):
        shown = progress.Progress(io.StringIO())
        shown.begin("names callers")
        self.assertEqual(shown.text(), "leak_lines: names callers")


if __name__ == "__main__":
    unittest.main()
