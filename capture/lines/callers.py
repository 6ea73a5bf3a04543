"""Rows of a report with the places of their callers, those that are suppressed apart."""
from types import MappingProxyType
from typing import NamedTuple

from lines import frames, progress, report

# Which numbers of a row are its own blocks and their bytes: what holders hold overlaps, and of growth what is there now
# counts.
OWN = {"caller": (0, 1), "holder": (2, 3), "in": (0, 1), "by": (0, 1), "grew": (3, 4), "structure": (0, 1)}


class Caller(NamedTuple):
    """A row and its places, the innermost first."""
    row: report.Row
    places: list


class What(NamedTuple):
    """By a row's text and address the lines below it in a table and its facts; and by the address of a lost block its
    own facts."""
    of_row: dict
    of_block: dict

    def below(self, row):
        """The lines below a row."""
        return self.of_row.get((row.text, row.address), ([], []))[0]

    def facts(self, row):
        """The facts of a row, each with how many blocks share it."""
        return self.of_row.get((row.text, row.address), ([], []))[1]


class Callers(NamedTuple):
    """By kind the callers that are shown, in the report's order, and those that are suppressed; what is said of lost
    blocks; the blocks and bytes of other callers that only suppressed blocks lead to; and of callers of leaks by their
    texts what else is to be said."""
    shown: dict
    suppressed: dict
    what: What = What({}, {})
    held: tuple = (0, 0)
    remarks: MappingProxyType = MappingProxyType({})

    def suppressed_sums(self):
        """The blocks that are suppressed, and their bytes."""
        return tuple(map(sum, zip(sums(self.suppressed), self.held)))


def sums(callers_by_kind):
    """The own blocks of callers, and their bytes."""
    pairs = [[caller.row.numbers[i] for i in OWN[kind]] for kind, callers in callers_by_kind.items()
             for caller in callers]
    return sum(blocks for blocks, _ in pairs), sum(size for _, size in pairs)


def name(rows_by_kind, suppressions, sources=None):
    """The callers of these rows, with names from the files that these sources have."""
    names = frames.Names(frames.frames_of_all(row.text for rows in rows_by_kind.values() for row in rows), sources)
    progress.SHOWN.begin("names callers")
    shown, suppressed = {}, {}
    for kind, rows in rows_by_kind.items():
        for row in rows:
            places = names.places_of(row.text)
            part = suppressed if suppressions.leaves_out(places) else shown
            part.setdefault(kind, []).append(Caller(row, places))
    return Callers(shown, suppressed)
