"""Where a report for a person is shown: on a terminal with its width and colors, or elsewhere without either."""
import os
import sys
import unicodedata
from typing import NamedTuple

NARROWEST = 40
COLORS = {"head": "1", "lost": "1;31", "titles": "2", "next": "36", "warning": "33"}


class Paper(NamedTuple):
    """How many columns there are, or 0 for any number, and whether colors are shown."""
    width: int = 0
    has_colors: bool = False

    def painted(self, text, role):
        """The text in the color of its role."""
        return f"\x1b[{COLORS[role]}m{text}\x1b[0m" if self.has_colors and text else text

    def wrapped(self, text):
        """The text in lines of whole words, where they fit; further lines are indented."""
        if not self.width or columns(text) <= self.width:
            return [text]
        lines, line = [], ""
        for word in text.split(" "):
            if line.strip() and columns(line) + 1 + columns(word) > self.width:
                lines.append(line)
                line = "  " + word
            else:
                line = f"{line} {word}" if line else word
        return lines + [line]


def of_output():
    """The terminal of standard output, or none. NO_COLOR and a terminal that is dumb have no colors (no-color.org)."""
    if not sys.stdout.isatty():
        return Paper()
    try:
        width = os.get_terminal_size(sys.stdout.fileno()).columns
    except OSError:
        width = 0
    has_colors = not os.environ.get("NO_COLOR") and os.environ.get("TERM", "dumb") != "dumb"
    return Paper(max(width or 80, NARROWEST), has_colors)


def columns_of(letter):
    """How many columns a character takes (Unicode, East Asian Width)."""
    return 0 if unicodedata.combining(letter) else 2 if unicodedata.east_asian_width(letter) in "WF" else 1


def columns(text):
    """How many columns a text takes."""
    return len(text) if text.isascii() else sum(map(columns_of, text))


def padded(text, width):
    """The text and blanks up to the width."""
    return text + " " * (width - columns(text))


def cut(text, width):
    """The begin of the text, if it takes more columns than there are; 0 is any number."""
    if not width or columns(text) <= width:
        return text
    taken = text[:width - 2]
    while columns(taken) > width - 2:
        taken = taken[:-1]
    return taken + ".."


def cut_before(text, width):
    """The end of the text, which tells most of a path with a line."""
    return cut(text[::-1], width)[::-1] if width and columns(text) > width else text
