"""Which log was searched, by its remarks: whose heap it has, and whether its texts are of callers (docs/FORMAT.md)."""
import re
from typing import NamedTuple

from lines import builds, opened

REMARK = re.compile(rb"\n= leak_(walk arena|walk heap|log names|log moment|log program static|"
                    rb"log allocator [^\n]{1,200})(?![^\n ])")
NAMES = b"log allocator "


class Kind(NamedTuple):
    """Whether the log has callers, those of all blocks or those since a table began; the allocators of its heaps; and
    whether the program is static."""
    has_callers: bool = False
    allocators: tuple = ()
    is_static: bool = False

    @property
    def is_traceable(self):
        """Whether leak_trace can run the program."""
        return not self.is_static and "musl" not in self.allocators

    @property
    def is_attachable(self):
        """Whether leak_trace may attach it: its malloc is glibc's."""
        return self.is_traceable and set(self.allocators) <= {"glibc"}


def read(path):
    """The kind of the log at this path."""
    found, allocators = set(), set()
    with opened.open_here(path) as file:
        for part in builds.parts_of(file):
            for remark in REMARK.findall(part):
                if remark.startswith(NAMES):
                    allocators.add(remark.removeprefix(NAMES).decode("utf-8", "replace"))
                else:
                    found.add(remark)
    is_of_heap_alone = {b"walk arena", b"walk heap"} & found and not {b"log names", b"log moment"} & found
    return Kind(not is_of_heap_alone, tuple(sorted(allocators)), b"log program static" in found)
