"""Lays out a table. Columns are as wide as their widest cell; a function's name of more than 60 characters widens
none."""
from typing import NamedTuple

WIDEST_NAME = 60


class Entry(NamedTuple):
    """The cells of a row, and its places: a function and where it is, for each frame."""
    cells: list
    places: list


def widths(rows):
    """The width of each column of rows of texts."""
    return [max(map(len, column)) for column in zip(*rows)]


def lay_out(titles, entries, gap, title_counts):
    """The lines of a table. A title of the functions may stick out where `title_counts` does not hold."""
    kept = [i for i, cell in enumerate(entries[0].cells) if cell is not None]
    rows = [[titles[i] for i in kept]] + [[entry.cells[i] for i in kept] for entry in entries]
    places = [[("function", "where")]] + [entry.places for entry in entries]
    counted = places if title_counts else places[1:]
    lengths = map(len, {name for frames in counted for name, _ in frames})
    name_width = max((it for it in lengths if it <= WIDEST_NAME), default=0)
    columns = widths(rows)
    blank = gap.join(" " * width for width in columns)
    lines, ends = [], {}
    for cells, frames in zip(rows, places):
        begin = gap.join(cell.rjust(width) for cell, width in zip(cells, columns))
        for place in frames:
            lines.append(begin + (ends.get(place) or
                                  ends.setdefault(place, f"  {place[0].ljust(name_width)}  {place[1]}")))
            begin = blank
    return lines
