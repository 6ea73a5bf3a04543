"""Reports as one page of HTML that needs no network: tables and flame graphs. page.html has all but the data."""
import json
import os
from collections import Counter

from lines import document, folded, remarks, report, sentences
from lines.options import Refused
from lines.units import counted, plain

PAGE = os.path.join(os.path.dirname(os.path.abspath(__file__)), "page.html")
MARK = "@DATA@"
SAID = "leak_find: "  # begins what leak_find says beside the report, where that was caught too


def warnings_of(read, found):
    """What the report, or leak_find beside it, says against itself, and what it means."""
    said = remarks.read([part.line for part in read.parts if part.line.startswith(SAID)], document.counts_of(read))
    counted = [f"Note: {count} callers: {remark}." for remark, count in Counter(found.remarks.values()).items()]
    return said._replace(warnings=[document.clean(it) for it in said.warnings] + counted)


def frame_of(place):
    """What the page shows of a place, and searches."""
    return [document.clean(text) for text in (*place.cells, place.module, place.label or "?")]


def what_of(row, said):
    """What the page shows of the row's blocks: what a table shows, and all facts."""
    facts = [f"{it.fact.text}: {it.count} blocks, {it.address}" for it in said.facts(row.row)]
    return [[document.clean(text) for text in texts] for texts in (said.below(row.row), facts)]


def part_of(read, found, count=None):
    """A report as the script reads it, with all its rows or the first of so many. Callers name their frames, the
    innermost first, by the places in a list: callers share most of them."""
    kind = report.kind_of(read)
    rows = found.shown.get(kind, [])
    index = {}
    stacks = [[index.setdefault(place, len(index)) for place in row.places] for row in rows]
    columns = document.NAMES[kind][:len(rows[0].row.numbers) if rows else None]
    return {
        **document.head_of(read, found, kind), "columns": columns, "weight": folded.BYTES[kind],
        "frames": [frame_of(place) for place in index], "left": max((count or 0) - len(rows), 0),
        "callers": [{"numbers": row.row.numbers, "address": row.row.address, "frames": stack,
                     "what": what_of(row, found.what)} for row, stack in zip(rows, stacks)],
    }


def escaped(text):
    """JSON that is only text in a script element, whatever the names in it are. Beyond ASCII json has escaped all."""
    for letter in "<>&":
        text = text.replace(letter, f"\\u{ord(letter):04x}")
    return text


def page(title, head, warnings, parts):
    """The text of a page with these parts, below its head in plain words."""
    with open(PAGE, encoding="utf-8") as file:
        begin, _, end = file.read().partition(MARK)
    texts = {"title": title, "head": head, "warnings": warnings, "parts": parts}
    return begin + escaped(json.dumps(texts)) + end


def head_of(read, found, effect):
    """The report in plain words, and what was suppressed."""
    kind = report.kind_of(read)
    rows = found.shown.get("structure", ())
    tops = sum(row.row.numbers[2] for row in rows) if rows else None
    blocks, size = found.suppressed_sums()
    sentence = sentences.of_report(kind, document.counts_of(read), tops, effect)
    suppressed = f"{counted(blocks, 'block')}, {plain(size)} are suppressed" if blocks else ""
    return [it for it in (sentence[:1].upper() + sentence[1:], suppressed) if it]


def lines_of(read, found):
    """The lines of the page of one report."""
    warned = warnings_of(read, found)
    text = page("leak_find", head_of(read, found, warned.effect), warned.warnings, [part_of(read, found)])
    return text.removesuffix("\n").split("\n")


def write(path, text):
    """Writes the text to the file."""
    try:
        with open(path, "w", encoding="utf-8") as file:
            file.write(text)
    except OSError as error:
        raise Refused(f"leak_lines: {path}: {error.strerror}") from error
