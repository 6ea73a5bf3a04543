"""score_containers.py NAME WHAT LOG REPORT: which containers of C++ leak_what tells, against the functions that asked
for the blocks. WHAT is what it says of the lost blocks of REPORT, LOG leak_trace's of the same process, with callers;
the program was built with debug information, of which addr2line tells the inlined allocators of libstdc++.

Prints a row: name, then of each kind of container how many blocks are right, wrong and silent.
"""
import re
import sys
from collections import Counter

from lines_of import lines_of_frames
from score import read_callers

KINDS = {"tree": "_Rb_tree_node<", "hash": "__detail::_Hash_node<", "buckets": "__detail::_Hash_node_base*"}
ALLOCATOR = re.compile(r"(?:new_allocator|allocator_traits<std::allocator)<(.*?)>+ ?>?::allocate\(")
STRING = re.compile(r"basic_string<.*_M_(create|construct|mutate|assign|append|replace)|basic_string<.*::reserve")


def kind_of(names):
    """The kind of container whose functions these are, the innermost first; "other" if it is one that is not told, ""
    if none."""
    for name in names:
        match = ALLOCATOR.search(name)
        if match:
            found = next((kind for kind, part in KINDS.items() if match[1].startswith("std::" + part)), None)
            if found:
                return found
            if match[1].startswith("char") and any("basic_string" in it for it in names):
                return "string"
            return "other"
    return "string" if any(STRING.search(it) for it in names) else ""


def read_told(path):
    """By address, the kind of container that is told."""
    with open(path, encoding="utf-8", errors="replace") as file:
        words = [line.split() for line in file if line.startswith("container ")]
    return {int(it[1], 16): it[2] for it in words}


def main(name, what, log, report):
    """Prints the row."""
    callers, told = read_callers(log), read_told(what)
    with open(report, encoding="utf-8", errors="replace") as file:
        wanted = {int(line.split()[1], 16) for line in file if line.startswith("leak ")} & callers.keys()
    lines = lines_of_frames({frame for _, frames in callers.values() for frame in frames}, "-C")
    counts = Counter()
    for address in wanted:
        truth = kind_of([function for frame in callers[address][1] for function, _ in lines.get(frame, ())])
        kind = told.get(address)
        counts[(kind or truth, "silent" if not kind else "right" if kind == truth else "wrong")] += 1
        if kind and kind != truth:
            print("wrong", f"{address:#x}", kind, truth, callers[address], file=sys.stderr)
    cells = [" / ".join(str(counts[(kind, it)]) for it in ("right", "wrong", "silent")) for kind in (*KINDS, "string")]
    print(f"| {name} | {len(wanted)} | " + " | ".join(cells) + " |")


if __name__ == "__main__":
    main(*sys.argv[1:])
