"""score.py NAME WHAT REPORT LOG: what leak_what said of lost blocks, against who asked for them. LOG is leak_trace's,
with callers.

Prints a row: name, lost blocks, and of likenesses how many are right, wrong and silent; then how many of these are right and wrong by
type, and how often the size alone would be right. A likeness is right if both blocks were asked for at the same place: the innermost
caller outside of libc that is no wrapper of malloc. A wrapper is a place that several callers use for more than six sizes. By type it is
right too if both places make objects of one type of C++, as an inlined allocator or the line's `new` names it, in a program with debug
information. Standard error gets the places of those that are wrong by type too.
"""
import re
import subprocess
import sys
from collections import Counter, defaultdict

from lines_of import FRAME, lines_of_frames

LEAST_SIZE = 41  # of a block that may be likened
DEEPEST = 6
LEFT_OUT = re.compile(r"libc\.so|drop_free")
ALLOCATOR = re.compile(r"(?:std::__new_allocator|__gnu_cxx::new_allocator)<(.*)>::allocate\(|std::make_unique<([^,]*)[,>]")
NEW = re.compile(r"\bnew\s+(?:\([^()]*\)\s*)?([A-Za-z_][\w:]*)")


def usable(size):
    """What malloc gives for so many bytes."""
    return ((size + 16 + 4095) & ~4095) - 16 if size >= 131072 else max((size + 23) & ~15, 32) - 8


def read_callers(path):
    """By address of each block its size and its callers outside of libc, the innermost first."""
    found = {}
    with open(path, encoding="utf-8", errors="replace") as file:
        for line in file:
            text, plus, rest = line.removeprefix("@ ").rpartition(" + 0x")
            if line.startswith("@ ") and plus:
                address, size = rest.split()
                frames = [it for it in text.split(" < ") if not LEFT_OUT.search(it)]
                found[int(address, 16)] = (usable(int(size, 16)), frames[:DEEPEST])
    return found


def wrappers_of(callers):
    """The places that allocate for others."""
    sizes, users = defaultdict(set), defaultdict(set)
    for size, frames in callers.values():
        for place, user in zip(frames, frames[1:] + [""]):
            sizes[place].add(size)
            users[place].add(user)
    return {place for place in sizes if len(sizes[place]) > 6 and len(users[place]) > 2}


def sites_of(callers):
    """By address, the place where the block was asked for."""
    wrappers = wrappers_of(callers)
    return {address: next((it for it in frames if it not in wrappers), frames[-1] if frames else "")
            for address, (_, frames) in callers.items()}


def line_at(where, kept):
    """The line of source there, or nothing."""
    path, _, number = where.rpartition(":")
    if path not in kept:
        try:
            with open(path, encoding="utf-8", errors="replace") as file:
                kept[path] = file.read().split("\n")
        except OSError:
            kept[path] = []
    return kept[path][int(number) - 1] if number.isdigit() and 0 < int(number) <= len(kept[path]) else ""


def without_templates(name):
    """The name of a function without arguments of templates and without parameters."""
    while re.search("<[^<>]*>", name):
        name = re.sub("<[^<>]*>", "", name)
    return name.partition("(")[0]


def scopes_of(path):
    """The classes and namespaces of which the program has functions."""
    run = subprocess.run(["nm", "-C", "--defined-only", path], capture_output=True, text=True, check=False)
    names = {without_templates(line.split(" ", 2)[-1]) for line in run.stdout.split("\n")}
    return {name[:match.start()] for name in names for match in re.finditer("::", name)}


def full_name(name, function, scopes):
    """The class that a function means by this name: of its own scopes' the innermost one. A parameter of a template, or what else is no
    known class, is the same only in the same function."""
    around = without_templates(function).split("::")[:-1]
    names = ["::".join(around[:depth] + [name]) for depth in range(len(around), -1, -1)]
    return next((it for it in names if it in scopes), f"{name} of {function}")


def type_of(lines, scopes, kept):
    """The type of the objects that are made there, "" if it is not to be told."""
    for function, where in lines:
        allocator, new = ALLOCATOR.match(function), NEW.search(line_at(where, kept))
        if allocator:
            return allocator[1] or allocator[2]
        if new:
            return full_name(new[1], function, scopes)
    return ""


def types_of(sites, addresses):
    """By place, the type of the objects of C++ that these blocks are."""
    kept, places = {}, {it: FRAME.match(it) for it in {sites[it] for it in addresses}}
    scopes = {path: scopes_of(path) for path in {it[1] for it in places.values() if it}}
    return {place: type_of(lines, scopes[places[place][1]], kept) for place, lines in lines_of_frames(places, "-C").items()}


def read_lost(path):
    """The addresses of lost blocks, with their sizes."""
    with open(path, encoding="utf-8", errors="replace") as file:
        words = [line.split(" ", 3) for line in file if line.startswith("leak ")]
    return {int(it[1], 16): int(it[2]) for it in words}


def read_facts(path):
    """By address the kinds of facts; and of each likeness the held block."""
    kinds, like = defaultdict(set), {}
    with open(path, encoding="utf-8", errors="replace") as file:
        for line in file:
            words = line.split(" ", 3)
            kinds[int(words[1], 16)].add(words[0])
            if words[0] == "like":
                like[int(words[1], 16)] = int(words[2], 16)
    return kinds, like


def by_size(sites, callers, lost):
    """By size, the place that asked for most held blocks of it."""
    counts = defaultdict(Counter)
    for address, (size, _) in callers.items():
        if address not in lost:
            counts[size][sites[address]] += 1
    return {size: count.most_common(1)[0][0] for size, count in counts.items()}


def judge(like, sites, counts):
    """Counts which likenesses are right, by place and by type, and prints the places of wrong ones."""
    types, wrong = types_of(sites, {it for pair in like.items() for it in pair}), Counter()
    for lost, held in like.items():
        places = sites[lost], sites[held]
        kinds = [types.get(it, "") for it in places]
        is_one_place, is_one_type = places[0] == places[1], kinds[0] != "" and kinds[0] == kinds[1]
        counts["right" if is_one_place else "wrong"] += 1
        counts["right by type" if is_one_place or is_one_type else "wrong by type"] += 1
        if not is_one_place and not is_one_type:
            wrong[places, tuple(kinds)] += 1
    for (places, kinds), count in wrong.most_common():
        print("wrong", count, *places, *kinds, sep="\t", file=sys.stderr)


def share(counts, kind):
    """Of each hundred answers, how many are right."""
    said = counts["right" + kind] + counts["wrong" + kind]
    return f"{100 * counts['right' + kind] / said:.1f}" if said else "-"


def main(name, what, report, log):
    """Prints the row."""
    callers, lost = read_callers(log), read_lost(report)
    sites, (kinds, like) = sites_of(callers), read_facts(what)
    guessed, counts = by_size(sites, callers, lost), Counter()
    known = {address: size for address, size in lost.items() if address in sites}
    candidates = {it for it, size in known.items() if size >= LEAST_SIZE and "text" not in kinds[it]}
    like = {address: held for address, held in like.items() if address in candidates and held in sites}
    judge(like, sites, counts)
    said = {it: sum(it in kinds[address] for address in known) for it in ("text", "word", "stdio")}
    by_size_alone = sum(guessed.get(known[it]) == sites[it] for it in like)
    print(f"| {name} | {len(known)} | {said['text']} | {said['word']} | {said['stdio']} | {counts['right']} | {counts['wrong']} | "
          f"{len(candidates) - len(like)} | {share(counts, '')} | {counts['right by type']} | {counts['wrong by type']} | "
          f"{share(counts, ' by type')} | {by_size_alone} |")


if __name__ == "__main__":
    main(*sys.argv[1:])
