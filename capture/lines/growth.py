"""What grew between two dumps of a process: by caller, how much of what is new is held, and how much of it is lost.

The second log begins with the first one, so a block is new if its line follows those of the first (docs/FORMAT.md,
What grew).
"""
import os
import re
from typing import NamedTuple

from lines import inputs, opened, report

PART = 1 << 20
LEAK = re.compile("leak (0x[0-9a-f]{1,16}) ([0-9]+) ([0-9]+) (?:head |held )(.*)", re.DOTALL)
CAME = re.compile(rb"@ (.*) \+ (0x[0-9a-f]{1,16}) 0x[0-9a-f]{1,16}", re.DOTALL)
WENT = re.compile(rb"(?:@ .* )?- (0x[0-9a-f]{1,16})", re.DOTALL)
MOST_CANDIDATES = 64


class Sums(NamedTuple):
    """Blocks and bytes."""
    blocks: int = 0
    size: int = 0


class Row(NamedTuple):
    """What grew of one text: the bytes now less those then, and the new blocks, of which some are lost."""
    text: str
    growth: int
    new: Sums
    lost: Sums

    @property
    def held(self):
        """The new bytes that are held."""
        return self.new.size - self.lost.size


class Growth(NamedTuple):
    """The live blocks then and now, the new ones, the lost ones of these, and rows with the greatest growth first."""
    then: Sums
    now: Sums
    new: Sums
    lost: Sums
    rows: list


def first_log(path):
    """The log of the first dump, by the names that leak_report gives."""
    return os.path.join(os.path.dirname(path), "first", "dump.log")


def lines_in(path):
    """How many lines the log has, and how many bytes they take."""
    lines, last, size = 0, 0, 0
    with open(path, "rb") as file:
        while part := file.read(PART):
            lines += part.count(b"\n")
            end = part.rfind(b"\n")
            last = size + end + 1 if end >= 0 else last
            size += len(part)
    return lines, last


def lost_since(read, lines):
    """By text the addresses and sizes of lost blocks that are new: their lines of the log follow so many others."""
    found = {}
    for part in read.parts:
        match = LEAK.fullmatch(part.line)
        if match and int(match[3]) > lines:
            found.setdefault(match[4], []).append((match[1], int(match[2])))
    return found


def sums_of(blocks):
    """The sums of pairs of an address and a size."""
    return Sums(len(blocks), sum(size for _, size in blocks))


def sums_in(lines, word):
    """The blocks and bytes of the line that begins with this word."""
    match = next((match for match in map(report.SUM.fullmatch, lines) if match and match[1] == word), None)
    return Sums(int(match[2]), int(match[3])) if match else Sums()


def rows_of(grew, lost):
    """The rows of a report of growth, with what of each is lost."""
    found = []
    for row in grew:
        growth, _, _, _, _, new_blocks, new_bytes = row.numbers
        found.append(Row(row.text, growth, Sums(new_blocks, new_bytes), sums_of(lost.get(row.text, ()))))
    return found


def read(path, leaks):
    """The growth that the reports beside the one at this path tell, which has these leaks; and the new lost blocks, by
    text."""
    lines = inputs.read_lines(inputs.beside(path, ".grow"))
    lost = lost_since(leaks, lines_in(first_log(path))[0])
    rows = rows_of(report.read(lines).rows.get("grew", ()), lost)
    then, now, new = (sums_in(lines, word) for word in ("then", "now", "new"))
    return Growth(then, now, new, sums_of([block for blocks in lost.values() for block in blocks]), rows), lost


def new_lines(path, offset):
    """The lines of the log after so many bytes."""
    rest = b""
    with opened.open_here(path) as file:
        while part := file.read(offset, PART):
            offset += len(part)
            *lines, rest = (rest + part).split(b"\n")
            rest = rest[:PART]
            yield from lines


def new_blocks(path, texts, lost):
    """By text the address of a new block with it that is held, where there is one. `lost` has lost ones, by text."""
    wanted = {text.encode("utf-8", "surrogateescape"): text for text in texts}
    gone = {address for blocks in lost.values() for address, _ in blocks}
    found, of_address = {text: {} for text in texts}, {}
    for line in new_lines(inputs.beside(path, ".log"), lines_in(first_log(path))[1]):
        came = CAME.fullmatch(line)
        text = wanted.get(came[1]) if came else None
        if text is not None and len(found[text]) < MOST_CANDIDATES and came[2].decode() not in gone:
            found[text][came[2].decode()] = None
            of_address[came[2].decode()] = text
        went = None if came or not of_address else WENT.fullmatch(line)
        if went and went[1].decode() in of_address:
            found[of_address.pop(went[1].decode())].pop(went[1].decode(), None)
    return {text: next(iter(addresses)) for text, addresses in found.items() if addresses}
