"""Lays out a table for a person: numbers, right of them functions with their places, and what blocks are."""
from typing import NamedTuple

from lines import paper

GAP, LEAST_TEXT, WIDEST_NAME = "  ", 8, 60


class Entry(NamedTuple):
    """The numbers of a row as texts, its pairs of a function and where it is, and further lines: texts, or pairs of a
    text and an end that is never cut."""
    cells: list
    places: list
    texts: list


def numbers_of(titles, entries):
    """The begin of each line with numbers, the titles first. A column with no text in it is left out."""
    columns = [[title, *(entry.cells[i] for entry in entries)] for i, title in enumerate(titles)]
    columns = [column for column in columns if any(column[1:])]
    widths = [max(map(len, column)) for column in columns]
    return [GAP.join(text.rjust(width) for text, width in zip(texts, widths)) + GAP for texts in zip(*columns)]


def fitted(text, width):
    """The text in a line of this width, or in two if its end leaves too little of it."""
    text, end = (text, "") if isinstance(text, str) else text
    left = width - paper.columns(end)
    if width and end and left < 3 * LEAST_TEXT:
        return [paper.cut(text, width), paper.cut(end.strip(" :"), width)]
    return [(paper.cut(text, left) if width else text) + end]


def texts_of(entry, width, name_width):
    """What stands right of a row's numbers, in lines of a width, or of any if it is 0."""
    lines = []
    for name, where in entry.places:
        begin = paper.padded(paper.cut(name, name_width), name_width) + GAP
        lines.append(begin + paper.cut_before(where, max(width - paper.columns(begin), 2) if width else 0))
    return lines + [line for text in entry.texts for line in fitted(text, width)]


def name_width_of(names, places, width):
    """The width of the functions, by those of their names and places: two fifths at least, and what places leave."""
    wanted = max([len("function"), *names])
    return min(wanted, max(width * 2 // 5, width - len(GAP) - max(places, default=0)) if width else WIDEST_NAME)


def lay_out(titles, entries, sheet):
    """The lines of the table, of which there are none without entries. On a terminal what is too long is cut."""
    if not entries:
        return []
    begins = numbers_of(titles, entries)
    width = max(sheet.width - len(begins[0]), LEAST_TEXT) if sheet.width else 0
    names = [paper.columns(name) for entry in entries for name, _ in entry.places]
    name_width = name_width_of(names, [paper.columns(where) for entry in entries for _, where in entry.places], width)
    title = paper.padded(paper.cut("function", name_width), name_width) + GAP + "where" if names else "what"
    lines = [sheet.painted(paper.cut(begins[0] + title, sheet.width), "titles")]
    for begin, entry in zip(begins[1:], entries):
        for text in texts_of(entry, width, name_width) or [""]:
            lines.append((begin + text).rstrip())
            begin = " " * len(begin)
    return lines
