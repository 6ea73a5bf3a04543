"""A report of leak_find: which of its lines are rows of a table, and what their words say. docs/FORMAT.md defines the
lines."""
import re
from typing import NamedTuple

NUMBER = "(0|[1-9][0-9]{0,19})"
SIGNED = "(0|-?[1-9][0-9]{0,19})"
ADDRESS = "(0x[0-9a-f]{1,16})"
# The words of each kind of row before its text, which may have any byte in it.
WORDS = {
    "caller": (NUMBER, NUMBER),
    "holder": (NUMBER,) * 5 + (ADDRESS,),
    "in": (NUMBER, NUMBER),
    "by": (NUMBER, NUMBER),
    "grew": (SIGNED,) + (NUMBER,) * 6,
}
SUM = re.compile(f"(marked|new|held|then|now) {NUMBER} bytes {NUMBER}")
HEADS = re.compile("heads [^ ]+|leak [^ ]+ [^ ]+ [^ ]+ (head|held)( .*)?", re.DOTALL)

LEAK = re.compile("leak 0x[0-9a-f]{1,16} ([0-9]+) [0-9]+ (.*)", re.DOTALL)
KIND = re.compile("head |held ")

# The first words of lines that stand in reports of a kind alone, in this order: "leaked" stands in those of holders
# too.
BESIDE = {"then ": "grew", "heads ": "caller", "held ": "in", "leaked ": "holder"}


class Row(NamedTuple):
    """A row: its numbers in the report's order, its address, which a holder alone has, and the text of the caller."""
    numbers: tuple
    address: str
    text: str


class Part(NamedTuple):
    """A line that is copied, or, where a kind is told, the place of the table of that kind."""
    line: str
    kind: str


class Report(NamedTuple):
    """The parts in order, the rows of each kind, the bytes of the lines that sum up, and whether callers have heads
    counted."""
    parts: list
    rows: dict
    bytes_of: dict
    has_heads: bool


def patterns(has_heads):
    """What the lines of each kind look like. Where heads are counted, callers have a third number."""
    words = dict(WORDS, caller=(NUMBER,) * 3) if has_heads else WORDS
    return {kind: re.compile(" ".join((kind,) + shape) + " (.*)", re.DOTALL) for kind, shape in words.items()}


def row_of(line, shapes):
    """The line's kind and row, or ("", None) where it is none."""
    kind = line.split(" ", 1)[0]
    match = shapes[kind].fullmatch(line) if kind in shapes else None
    if not match:
        return "", None
    words, text = match.groups()[:-1], match.groups()[-1]
    address = words[-1] if words[-1].startswith("0x") else ""
    return kind, Row(tuple(int(word) for word in words if word != address), address, text)


def read(lines):
    """The report of these lines. A table stands where its first row stood."""
    has_heads = any(HEADS.fullmatch(line) for line in lines)
    shapes, report = patterns(has_heads), Report([], {}, {}, has_heads)
    for line in lines:
        kind, row = row_of(line, shapes)
        if row is None:
            report.parts.append(Part(line, ""))
            match = SUM.fullmatch(line)
            if match:
                report.bytes_of.setdefault(match[1], int(match[3]))
            continue
        if kind not in report.rows:
            report.rows[kind] = []
            report.parts.append(Part("", kind))
        report.rows[kind].append(row)
    return report


def leak_of(line, has_heads):
    """The size and the caller's text of a line about one leaked block, or (None, None)."""
    match = LEAK.fullmatch(line)
    return (match[1], KIND.sub("", match[2], count=1) if has_heads else match[2]) if match else (None, None)


def whole(report, kind):
    """The bytes that a share of this kind's rows is of, or None where the report tells none, or none above 0."""
    sums = report.bytes_of
    if kind == "holder":
        number = sums.get("new", sums.get("marked", 0))
    elif kind == "grew":
        number = sums["now"] - sums["then"] if "now" in sums and "then" in sums else 0
    else:
        number = sums.get("held", 0)
    return number if number > 0 else None


def kind_of(report):
    """The kind of the report's rows, by its other lines if it has none, or "" if it has no such lines either."""
    if report.rows:
        return next(iter(report.rows))
    kind = next((kind for word, kind in BESIDE.items() if any(part.line.startswith(word) for part in report.parts)), "")
    # Each block that chosen blocks hold is in a row, so if no row tells of held blocks, it was asked who holds them.
    is_of = kind == "in" and any(re.match("held [1-9]", part.line) for part in report.parts)
    return "by" if is_of else kind
