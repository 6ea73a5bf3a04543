"""Two reports compared by caller: what is new, grown, shrunk and gone.

Callers are the same where functions and lines of their stacks are.
"""
import os
from typing import NamedTuple

from lines import report, table
from lines.callers import sums
from lines.options import Refused
from lines.units import signed_size, size

KINDS = ("caller", "holder")
STATES = ("new", "grown", "shrunk", "gone", "same")
TITLES = ("state", "change", "then", "now", "blocks")


class Sum(NamedTuple):
    """The bytes and blocks of all rows of one stack, and its places."""
    size: int
    blocks: int
    places: list


class Change(NamedTuple):
    """A stack in both reports. What is in one alone has no bytes and no blocks in the other."""
    state: str
    then: Sum
    now: Sum

    @property
    def size(self):
        """By how many bytes it changed."""
        return self.now.size - self.then.size

    @property
    def places(self):
        """Its places, of the newer report where it is there."""
        return self.now.places or self.then.places


NOTHING = Sum(0, 0, [])


def kind_of(reports):
    """The kind of rows of the reports. One without rows has any kind."""
    found = {report.kind_of(read) for read in reports}
    if not found <= set(KINDS) or all(read.rows for read in reports) and len(found) > 1:
        raise Refused("leak_lines: --since compares two reports of leaks, or two of holders")
    return next((report.kind_of(read) for read in reports if read.rows), KINDS[0])


def stack_of(places, has_lines):
    """What makes callers the same: functions, and if asked for the files' names and lines. Addresses and folders differ
    between builds."""
    return tuple((it.label,) + ((os.path.basename(it.file), it.line) if has_lines else ()) for it in places)


def by_stack(callers, has_lines):
    """By stack, the sum of the rows of these callers."""
    found = {}
    for row, places in callers:
        key = stack_of(places, has_lines)
        before = found.get(key, NOTHING)
        found[key] = Sum(before.size + row.numbers[1], before.blocks + row.numbers[0], before.places or places)
    return found


def state_of(then, now):
    """How a stack changed, by the bytes of its rows, where it has rows."""
    if then is NOTHING or now is NOTHING:
        return "new" if then is NOTHING else "gone"
    return "same" if now.size == then.size else "grown" if now.size > then.size else "shrunk"


def compare(old, new, has_lines):
    """The changes from one list of callers to another, the greatest growth first."""
    then, now = by_stack(old, has_lines), by_stack(new, has_lines)
    pairs = {key: (then.get(key, NOTHING), now.get(key, NOTHING)) for key in list(now) + list(then)}
    changes = [Change(state_of(*pair), *pair) for pair in pairs.values()]
    return sorted(changes, key=lambda it: (-it.size, [place.label for place in it.places]))


def cells(change, kind):
    """What the table shows of a change. Bytes of leaks are told as they are, as in a table of callers."""
    signed, plain = (signed_size, size) if kind == "holder" else ("{:+}".format, str)
    return [change.state, signed(change.size), plain(change.then.size), plain(change.now.size), str(change.now.blocks)]


def count(changes):
    """How many changes there are of each state."""
    return ", ".join(f"{sum(it.state == state for it in changes)} {state}" for state in STATES)


def lines_of(found, kind, asked):
    """The lines that are printed of the callers of the older and the newer report."""
    lists = [it.shown.get(kind, []) for it in found]
    changes = compare(*lists, asked.has_lines)
    shown = [it for it in changes if it.state != "same"]
    entries = [table.Entry(cells(it, kind), [place.shown for place in it.places]) for it in shown[:asked.most]]
    lines = ["{} {} blocks {} bytes".format(word, *sums({kind: it})) for word, it in zip(("then", "now"), lists)]
    lines.append(f"callers: {count(changes)}")
    lines += table.lay_out(TITLES, entries, "  ", True) if entries else []
    return lines + ([f"and {len(shown) - len(entries)} more"] if len(shown) > len(entries) else [])


def status_of(found, asked):
    """1 where a caller of leaked blocks is new or grew, else 0."""
    changes = compare(*[it.shown.get("caller", []) for it in found], asked.has_lines)
    return 1 if any(it.state in ("new", "grown") for it in changes) else 0
