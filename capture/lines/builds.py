"""Which builds of files the process had: leak_log and leak_walk write it as remarks of their logs.

A log has the line `= leak_log files` if it tells them, and then `= leak_log file BUILD-ID PATH` for each ELF file, with
- where the file has no build-id, and ? where the core lacks its notes. Of a file without one it may have the line
`= leak_log written SIZE SECONDS NANOSECONDS PATH`: the size of the file, and its time of change.
"""
import re
from types import MappingProxyType
from typing import NamedTuple

from lines import opened, signal_stacks

TOLD = b"\n= leak_log files\n"
FILE = re.compile(rb"\n= leak_log file (-|\?|[0-9a-f]{2,128}) ([^\n]{1,8192})(?=\n)")
WRITTEN = re.compile(rb"\n= leak_log written ([0-9]{1,20}) ([0-9]{1,20}) ([0-9]{1,9}) ([^\n]{1,8192})(?=\n)")
# bytes that are read at once; a process may have 65,530 mappings (vm.max_map_count)
PART, MOST_FILES = 1 << 20, 1 << 16


class Builds(NamedTuple):
    """Whether the log tells builds, by path the build-ids of the files there ("" of one without, "?" of one that is not
    known), and which signal stacks are not known. By path of a file without a build-id the sizes and times of the files
    there."""
    is_told: bool
    ids: dict
    stacks: signal_stacks.Unknown = signal_stacks.Unknown()
    written: MappingProxyType = MappingProxyType({})


NONE = Builds(False, {})


def parts_of(file):
    """The log in parts of whole lines, each with the line end before it."""
    place, rest = 0, b"\n"
    while part := file.read(place, PART):
        place += len(part)
        whole, end, after = (rest + part).rpartition(b"\n")
        if end:
            yield whole + end
        rest = end + after if len(after) <= PART else b""


def read(path):
    """The builds that the log at this path tells."""
    is_told, ids, stacks, written = False, {}, signal_stacks.Unknown(), {}
    with opened.open_here(path) as file:
        for part in parts_of(file):
            is_told = is_told or TOLD in part
            stacks = signal_stacks.last_in(part, stacks)
            for identity, name in FILE.findall(part):
                if len(ids) < MOST_FILES:
                    ids.setdefault(name.decode("utf-8", "surrogateescape"), set()).add("" if identity == b"-"
                                                                                       else identity.decode())
            for *numbers, name in WRITTEN.findall(part):
                if len(written) < MOST_FILES:
                    written.setdefault(name.decode("utf-8", "surrogateescape"), set()).add(tuple(map(int, numbers)))
    return Builds(is_told, ids, stacks, written)
