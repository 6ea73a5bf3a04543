"""Tests of leak_lines --html: names in a report are only text on the page, and all of the report is there. No browser
is needed."""
import json
import os
import re
import sys
import unittest
from html.parser import HTMLParser

sys.path.insert(0, os.path.join(os.path.dirname(os.path.abspath(__file__)), ".."))
from lines import callers, folded, html, options, report, suppressions  # noqa: E402

HOSTILE = ["</script><script>alert`1`</script>",
           "<!--<script>", "<img src=x onerror=alert`1`>", "\"'`${x}&amp;&lt;", "line\u2028of\u2029two",
           "@DATA@", "\\u003c/script>", "]]>", "__proto__", "caf\u00e9 \U0001f600", "\udcff bytes", "\x00\x1b[31m",
           "a;b"]
HEAD = ["blocks 9 bytes 100", "undumped 0", "unknown 0 displaced 0 torn 0", "marked 1 bytes 10"]


class Parts(HTMLParser):
    """The elements of a page with their attributes, and the text in its scripts."""

    def __init__(self, text):
        super().__init__()
        self.elements, self.scripts, self.comments = [], [], []
        self.feed(text)
        self.close()

    def handle_starttag(self, tag, attrs):
        self.elements.append((tag, tuple(attrs)))
        if tag == "script":
            self.scripts.append("")

    def handle_data(self, data):
        if self.elements and self.elements[-1][0] == "script":
            self.scripts[-1] += data

    def handle_comment(self, data):
        self.comments.append(data)


def page_of(lines, *patterns):
    """The page of the report of these lines, with these suppressions, the data of its one part and its texts, and the
    callers that are found."""
    read = report.read(lines)
    found = callers.name(read.rows, suppressions.Suppressions(patterns))
    parts = Parts("\n".join(html.lines_of(read, found)))
    texts = json.loads(parts.scripts[0])
    return parts, {**texts["parts"][0], **{name: texts[name] for name in ("title", "head", "warnings")}}, found


def leaks(names):
    """A report of leaks with a caller for each name, called by main."""
    rows = [f"caller 1 {i + 1} 1 /x/app:({name}+1c)[0x12] < /x/app:(main+1c)[0x34]" for i, name in enumerate(names)]
    return HEAD + [f"leaked {len(rows)} bytes 1", f"heads {len(rows)}"] + rows


class Pages(unittest.TestCase):
    def test_hostile_names_are_only_text(self):
        plain, _, _ = page_of(leaks(["name"] * len(HOSTILE)))
        for name in HOSTILE:
            parts, data, _ = page_of(leaks([name]) + [f"leak_find: warning: {name}"])
            self.assertEqual((parts.elements, parts.comments, parts.scripts[1]), (plain.elements, [], plain.scripts[1]),
                             name)
            told = name.encode("utf-8", "surrogateescape").decode("utf-8", "replace")
            self.assertEqual(data["frames"][0][3], told)
            self.assertEqual(data["frames"][0][0], told + "+1c")
            self.assertEqual(len(data["warnings"]), 1)
            self.assertTrue(data["warnings"][0].startswith("Warning: ") and data["warnings"][0].isprintable())

    def test_the_data_has_no_letter_that_ends_it(self):
        text = Parts("\n".join(html.lines_of(report.read(leaks(HOSTILE)), page_of(leaks(HOSTILE))[2]))).scripts[0]
        self.assertFalse(set("<>&\u2028\u2029") & set(text))
        self.assertTrue(text.isascii())

    def test_nothing_is_loaded(self):
        parts, _, _ = page_of(leaks(["f"]))
        names = {name for _, attributes in parts.elements for name, _ in attributes}
        self.assertFalse(names & {"src", "href", "srcset", "data", "action"})
        self.assertIn(("http-equiv", "Content-Security-Policy"),
                      [pair for _, attributes in parts.elements for pair in attributes])
        self.assertNotIn("url(", "\n".join(html.lines_of(report.read(leaks(["f"])), page_of(leaks(["f"]))[2])))
        for word in ("innerHTML", "outerHTML", "insertAdjacentHTML", "document.write", "eval(", "fetch(", "import("):
            self.assertNotIn(word, parts.scripts[1])

    def test_all_rows_are_there(self):
        rows = [f"caller {i} {i * 8} 0 /x/app:(f{i}+1)[0x{i:x}] < /x/app:(main+1c)[0x34]" for i in range(1, 200)]
        _, data, _ = page_of(HEAD + ["leaked 3 bytes 20", "heads 0"] + rows)
        found = [(*caller["numbers"], [data["frames"][place][3] for place in caller["frames"]])
                 for caller in data["callers"]]
        self.assertEqual(found, [(i, i * 8, 0, [f"f{i}", "main"]) for i in range(1, 200)])
        self.assertEqual(len(data["frames"]), 200)
        self.assertEqual((data["columns"], data["weight"], data["report"]), (["blocks", "bytes", "heads"], 1, "leaks"))
        self.assertEqual(data["counts"]["leaked"], {"blocks": 3, "bytes": 20})
        self.assertEqual(data["frames"][0][2], "/x/app")

    def test_the_stacks_are_those_of_folded(self):
        grew = ["then 1 bytes 1", "now 1 bytes 1", "grew 2000 1 2 3 4 5 6 /x/b:[0x1] < /x/a:[0x2]",
                "grew -5 1 2 3 4 5 6 /x/c:[0x3]"]
        holders = ["marked 6 bytes 2500", "leaked 0 bytes 0", "holder 6 1250 3 72 0 0x10100 /x/app:[0x99]",
                   "holder 4 9 1 2 1 0x20 size 24"]
        for lines in (leaks(["f", "g"]), grew, holders):
            _, data, found = page_of(lines)
            stacks = {}
            for caller in data["callers"]:
                stack = ";".join(data["frames"][place][3] for place in reversed(caller["frames"]))
                stacks[stack] = max(caller["numbers"][data["weight"]], 0)
            kind = report.kind_of(report.read(lines))
            self.assertEqual([f"{stack} {size}" for stack, size in stacks.items() if size],
                             folded.lines_of(found.shown[kind], kind))
        self.assertEqual([caller["address"] for caller in data["callers"]], ["0x10100", "0x20"])

    def test_warnings_are_of_counts_above_zero(self):
        lines = ["undumped 4096", "unknown 0 displaced 3 torn 1", "leaked 0 bytes 0", "heads 0", "misfits 2"]
        _, data, _ = page_of(lines)
        self.assertEqual([re.sub("[^0-9]", "", text) for text in data["warnings"]], ["4096", "3", "", "2"])
        self.assertEqual(data["head"],
                         ["None found lost, but the search is not complete (of the blocks that could be searched)"])
        self.assertEqual(data["callers"], [])
        self.assertEqual(page_of(leaks(["f"]))[1]["warnings"], [])

    def test_the_head_is_in_plain_words(self):
        _, data, _ = page_of(leaks(["f"]))
        self.assertEqual((data["title"], data["head"]), ("leak_find", ["9 blocks, 100 bytes in use; 1 lost, 1 byte"]))
        grew = ["then 5 bytes 100", "now 7 bytes 2100", "new 3 bytes 2040", "grew 2000 1 2 3 4 5 6 /x/b:[0x1]"]
        self.assertEqual(page_of(grew)[1]["head"],
                         ["Grew by 2.0 KB, to 7 blocks, 2.1 KB in use; 3 blocks, 2.0 KB, are new"])
        holders = ["new 3 bytes 50", "marked 6 bytes 2500", "leaked 0 bytes 0",
                   "holder 6 1250 3 72 0 0x10100 /x/app:[0x99]"]
        self.assertEqual(page_of(holders)[1]["head"], ["6 blocks, 2.5 KB are held; of 3 new blocks, 50 bytes"])
        self.assertEqual(page_of(["asked 0x10 1 1 x", "held 2 bytes 30", "in 2 30 /x/b:[0x1]"])[1]["head"],
                         ["2 blocks, 30 bytes are held"])

    def test_what_is_suppressed_is_counted(self):
        _, data, _ = page_of(leaks(["f", "g", "h"]), "^g$")
        self.assertEqual(data["head"][1:], ["1 block, 2 bytes are suppressed"])
        self.assertEqual(data["suppressed"], {"blocks": 1, "bytes": 2})
        self.assertEqual([frame[3] for frame in data["frames"]], ["f", "main", "h"])

    def test_words(self):
        self.assertEqual(options.read(["--html", "p", "r"]), options.Options(form="html", page="p", path="r"))
        for words in (["--html"], ["--html="], ["--html", "p", "--json"], ["--folded", "--html=p"],
                      ["--since", "o", "--html", "p", "n"]):
            with self.assertRaises(options.Refused, msg=words):
                options.read(words)


unittest.main()
