"""score_types.py NAME TYPED LOG WHAT FOLDER [SITES]: the types that `leak_what --types` gives blocks, against the
source lines that asked for them. TYPED is its log, LOG leak_trace's of the same process, with callers, and WHAT what
leak_what says of the blocks that are lost by TYPED; the program was built with debug information, in FOLDER.

Prints a row: name, live blocks, those with a type, how many of them are right, wrong and unjudged; the same of those
told as `or array`; and of lost blocks that look like one of a type. The line tells the type by `sizeof (T)` or
`sizeof *v`, or by the variable that it assigns to, as the function declares it; a copy of a text tells that it is none.
In C++ an inlined allocator tells it.
SITES lists what is not right.
"""
import os
import re
import sys
from collections import Counter

from lines_of import lines_of_frames
from score import ALLOCATOR, read_callers, sites_of

TYPED = re.compile(r"@ (.*) \+ 0x([0-9a-f]+) 0x[0-9a-f]+$")
SIZEOF = re.compile(r"\bsizeof\s*\(?\s*(?:(?:const\s+)?(?:struct\s+)?(\w+)(\s*\*)?\s*\)|\*\s*\(?([\w>.-]+)\)?)")
ASSIGNED = re.compile(r"(?:(\w+)\s*\*+\s*)?([\w>.-]+)\s*=[^=]")
TEXT = re.compile(r"strn?dup|savestring|asprintf|sdsnew|sdscat|sdsdup")
NONE = {"char", "int", "long", "void", "double", "unsigned", "size_t", "uint8_t", "u_char", "uint32_t"}
BEFORE, AFTER = 120, 3


def read_typedefs(folder):
    """By name of a typedef, the tag of its structure."""
    found = {}
    for at, _, names in os.walk(folder):
        for name in names:
            if name.endswith((".c", ".h")):
                with open(os.path.join(at, name), encoding="utf-8", errors="replace") as file:
                    text = file.read()
                for tag, alias in re.findall(r"typedef\s+struct\s+(\w+)\s*\*?\s*(\w+)\s*;", text):
                    found[alias] = tag
                for tag, alias in re.findall(r"typedef\s+struct\s+(\w+)\s*\{[^{}]*(?:\{[^{}]*\}[^{}]*)*\}\s*(\w+)\s*;",
                                             text):
                    found[alias] = tag
    return found


def declared(variable, lines):
    """The type that the lines declare the variable with, the last one."""
    name = re.split(r"->|\.", variable)[-1]
    for line in reversed(lines):
        match = re.search(rf"\b(\w+)\s*\*+\s*(?:const\s+)?(?:\w+\s*(?:=[^,;]*)?,\s*\*?\s*)*{re.escape(name)}\b", line)
        if match and match[1] not in ("return", "sizeof"):
            return match[1]
    return None


def type_at(where, kept):
    """The type that the source line tells, "" of a text, and None if it tells none."""
    path, _, number = where.rpartition(":")
    if where in kept or not number.isdigit():
        return kept.get(where)
    try:
        with open(path, encoding="utf-8", errors="replace") as file:
            lines = file.read().split("\n")
    except OSError:
        return None
    at = int(number) - 1
    here, found = " ".join(lines[max(at - 1, 0):at + AFTER]), None
    size, assigned = SIZEOF.search(lines[at]) or SIZEOF.search(here), ASSIGNED.search(lines[at])
    if TEXT.search(lines[at]):
        found = ""
    elif size and not (size[1] in NONE and size[2]):
        found = size[1] if size[1] else declared(size[3], lines[max(at - BEFORE, 0):at + 1])
        found = "" if size[1] in NONE else found
    elif assigned:
        found = assigned[1] or declared(assigned[2], lines[max(at - BEFORE, 0):at + 1])
        found = None if found in NONE else found
    kept[where] = found
    return found


def judge(label, site, typedefs, kept):
    """Whether the label is what the site's inlined allocator or its lines tell, or None."""
    plain = re.sub(r"^(struct|class) | or array$", "", label)
    for function, _ in site:
        match = ALLOCATOR.match(function)
        if match:
            return plain.replace(" ", "") == (match[1] or match[2]).replace(" ", "")
    told = [type_at(where, kept) for _, where in site]
    wanted = next((it for it in told if it is not None), None)
    if wanted is None:
        return None
    name = plain.replace(" *", "")
    return name in (wanted, typedefs.get(wanted, wanted))


def of_libc(path):
    """The addresses of blocks that the C library asked for, for itself: no line of the program tells their type."""
    found = set()
    with open(path, encoding="utf-8", errors="replace") as file:
        for line in file:
            text, plus, rest = line.removeprefix("@ ").rpartition(" + 0x")
            frames = [it for it in text.split(" < ") if "drop_free" not in it]
            if line.startswith("@ ") and plus and frames and "libc.so" in frames[0]:
                found.add(int(rest.split()[0], 16))
    return found


def read_lost(path):
    """By address, the type of the block that a lost one looks like."""
    with open(path, encoding="utf-8", errors="replace") as file:
        words = [line.rstrip("\n").split(" ", 2) for line in file if line.startswith("type ")]
    return {int(it[1], 16): it[2] for it in words}


def after_wrappers(frames, site):
    """The place that asked for a block, and its caller: if the first line tells no type, the place is a wrapper
    still."""
    at = frames.index(site) if site in frames else 0
    return frames[at:at + 2]


def main(name, typed, log, what, folder, listed=""):
    """Prints the row."""
    callers, kept, counts, told = read_callers(log), {}, Counter(), Counter()
    sites, typedefs = sites_of(callers), read_typedefs(folder)
    with open(typed, encoding="utf-8", errors="replace") as file:
        blocks = {int(it[2], 16): it[1] for it in map(TYPED.match, file) if it and int(it[2], 16) in sites}
    labels = {at: it for at, it in blocks.items() if not re.match(r"size \d+$|/|\?", it)}
    lost = {at: it for at, it in read_lost(what).items() if at in sites and at not in labels}
    own = of_libc(log)
    places = {it: after_wrappers(callers[it][1], sites[it]) for it in (*labels, *lost)}
    lines = lines_of_frames({it for frames in places.values() for it in frames}, "-C")
    for address, label in (*labels.items(), *lost.items()):
        where = [it for frame in places[address] for it in lines.get(frame, [])]
        right = None if address in own else judge(label, where, typedefs, kept)
        counts[right, "lost" if address in lost else label.endswith(" or array")] += 1
        if right is not True:
            told[right, label, str(where)] += 1
    print(f"| {name} | {len(blocks)} | {len(labels)} | {counts[True, False]} | {counts[False, False]} | "
          f"{counts[None, False]} | "
          f"{counts[True, True]} | {counts[False, True]} | {counts[None, True]} | "
          f"{counts[True, 'lost']} | {counts[False, 'lost']} | {counts[None, 'lost']} |")
    for (right, label, where), count in told.most_common(40) if listed else ():
        print(count, right, label, where[:300])


if __name__ == "__main__":
    main(*sys.argv[1:])
