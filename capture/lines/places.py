"""Places of callers: what a table shows of a frame, and its parts for those who compare, group or search them."""
import os
import re
from typing import NamedTuple

from lines import shown

OFFSET = re.compile(r"\+(0x)?[0-9a-f]+$")


class Place(NamedTuple):
    """A frame, or a function that was inlined there."""
    cells: tuple  # function and file:line in a table; where they are not known, what the log has in their stead, or ?
    function: str  # "" where none is known
    file: str  # of the source, or ""
    line: int  # 0 where it is not known
    module: str  # the mapped file, or ""
    address: int  # in the module, or 0
    text: str  # of the frame, as the log has it
    label: str  # the function, or its stead: the module with the address there, or the text of the log
    is_inlined: bool
    problem: str = ""  # why nothing was named from the module

    @property
    def shown(self):
        """The cells as a terminal is shown them."""
        return tuple(map(shown.escaped, self.cells))


def inlined(place):
    """The place as one of a function that was inlined: a table marks it by a ^."""
    name, where = place.cells
    return place._replace(cells=("^ " + name, where), is_inlined=True)


def logged(name):
    """The function of a name in the log, which has an offset: main+0x1c."""
    return OFFSET.sub("", name)


def source(where):
    """File and line of addr2line's words file:line, of which each may be unknown."""
    file, _, line = where.rpartition(":")
    return "" if file.startswith("??") else file, int(line) if line.isascii() and line.isdigit() else 0


def is_unknown(word):
    """Whether addr2line says that it does not know, or names no file before the colon."""
    return word.startswith("??") or word == ":?"


def of(frame, name, where, problem):
    """The place of a frame: its function, or "", and addr2line's words file:line. Where nothing was named from the file
    it says why."""
    in_module = f"{os.path.basename(frame.path)}+{frame.address:#x}" if frame.path else ""
    function, (file, line) = name or logged(frame.name), source(where)
    place = where if not is_unknown(where) else f"{frame.text} ({problem})" if problem else frame.text
    return Place((name or frame.name or in_module or "?", place), function, file, line, frame.path, frame.address,
                 frame.text,
                 function or in_module or frame.text, False, problem)
