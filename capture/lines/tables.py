"""The report with its rows as tables: what is printed where no other form is asked for."""
import re

from lines import report, shown, table, views

LEAK = re.compile("leak 0x[0-9a-f]{1,16} [0-9]+ [0-9]+ (.*)", re.DOTALL)
BLOCK = re.compile("leak (0x[0-9a-f]{1,16}) ")
KIND = re.compile("head |held ")


def table_of(read, kind, rows, left_out, found):
    """The lines of the table of a kind, with a last one of the rows that are left out. Callers' tables have a form of
    their own, which is older."""
    whole = report.whole(read, kind)
    entries = [table.Entry(views.CELLS[kind](caller.row, whole),
                           [place.shown for place in caller.places] + below(kind, caller.row, found))
               for caller in rows]
    is_caller = kind == "caller"
    lines = table.lay_out(views.TITLES[kind], entries, " " if is_caller else "  ", not is_caller)
    return lines + ([views.rest(kind, left_out)] if left_out else [])


def below(kind, row, found):
    """What is said of the row's blocks, as further places."""
    remark = found.remarks.get(row.text) if kind == "caller" else None
    return [("", line) for line in found.what.below(row)] + ([("", remark)] if remark else [])


def lines_of_leak(line, said):
    """The line about a leaked block, and those with what it is."""
    match = BLOCK.match(line) if said.of_block else None
    return [shown.escaped(line)] + ([f"what {match[1]} {fact.text}" for fact in said.of_block.get(match[1], [])]
                                    if match else [])


def is_about(line, addresses):
    """Whether the line is about a leaked block at one of these addresses."""
    match = BLOCK.match(line)
    return match is not None and match[1] in addresses


def text_of_leak(line, has_heads):
    """The caller's text of a line about one leaked block, or None."""
    match = LEAK.fullmatch(line)
    return match and (KIND.sub("", match[1], count=1) if has_heads else match[1])


def lines_of(read, found, most):
    """The lines of the report with tables of so many rows at most, which must be among those found. Blocks of
    suppressed callers are left out."""
    hidden = {caller.row.text for kind in found.suppressed for caller in found.suppressed[kind]}
    out = []
    for part in read.parts:
        if not part.kind:
            is_shown = not hidden or text_of_leak(part.line, read.has_heads) not in hidden
            out += lines_of_leak(part.line, found.what) if is_shown else []
        elif part.kind in found.shown:
            left = [row for row in read.rows[part.kind] if row.text not in hidden]
            out += table_of(read, part.kind, found.shown[part.kind][:most], left[most or len(left):], found)
    return out


def suppressed_line(found):
    """The last line, of what is suppressed."""
    blocks, size = found.suppressed_sums()
    return f"suppressed {blocks} blocks {size} bytes"
