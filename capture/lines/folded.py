"""Stacks for flame graphs, a line for each, as flamegraph.pl takes them: the outermost frame first, and the bytes."""
from lines import shown

# The number of a row that is told.
BYTES = {"caller": 1, "holder": 1, "in": 1, "by": 1, "grew": 0, "structure": 1}


def stack_of(places):
    """The places in one text. A ; in a name would part it."""
    return ";".join(shown.escaped(place.label.replace(";", ":")) or "?" for place in reversed(places))


def lines_of(callers, kind):
    """A line for each stack that has bytes above 0, in the order of the rows. Rows of one stack are one line."""
    sums = {}
    for row, places in callers:
        stack = stack_of(places)
        sums[stack] = sums.get(stack, 0) + max(row.numbers[BYTES[kind]], 0)
    return [f"{stack} {size}" for stack, size in sums.items() if size > 0]
