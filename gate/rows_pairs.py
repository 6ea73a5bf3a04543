"""Two cores and their logs that are refused: input 1 before input 2, and then logs of which one does not begin the other."""

from case import refused
from cores import ONE_BLOCK, TWO_BLOCKS, at, core, field, first, notes, other_note, vectors

LINE = "two core.1 log.1 core.2 log.2"
GOOD = (core(), "+ 0x10100 0x20\n")
NOT_PREFIX = "log 1 is not a prefix of log 2"
FAULTS = ("input 1: core: not an ELF file", "input 1: notes: no thread status", "input 1: log: line 1 is not an mtrace line",
          "input 2: core: not an ELF file", "input 2: notes: no thread status", "input 2: log: line 2 is not an mtrace line",
          NOT_PREFIX)


def pair(name, reason, first_input, second_input, text):
    """Two inputs that are refused."""
    files = {"core.1": first_input[0], "log.1": first_input[1], "core.2": second_input[0], "log.2": second_input[1]}
    return refused(f"two: {name}", reason, LINE, files, text)


def core_with(is_bad, has_no_notes):
    """The sample with a fault in its first byte, in its notes, in both or in none."""
    parts = [at(0, b"\0")] if is_bad else []
    return core(*parts, *([field(64, 0, 4)] if has_no_notes else []))


def second_log(is_bad, is_other):
    """A log with a faulty second line or without. It may begin with another line than the first log."""
    return f"+ {0x10300 if is_other else 0x10100:#x} 0x20\n+ 0x10200{'' if is_bad else ' 0x10'}\n"


def of_order():
    """Each set of faults: the first by the order is told."""
    found = []
    for faults in range(1, 1 << len(FAULTS)):
        has = [bool(faults >> place & 1) for place in range(len(FAULTS))]
        first_input = (core_with(has[0], has[1]), "+ 0x10100\n" if has[2] else GOOD[1])
        second_input = (core_with(has[3], has[4]), second_log(has[5], has[6]))
        name = "order: " + " ".join(str(place) for place, there in enumerate(has, 1) if there)
        why = "input 1 before input 2, each core, notes, log; and then the beginning"
        found.append(pair(name, why, first_input, second_input, FAULTS[has.index(True)]))
    return found


def of_each_input():
    """The same fault in either input is told with its number."""
    short = core(vectors(), notes(884), field(536, 508, 4))
    rows = [
        ("a core without its last byte", (core(first(8191)), GOOD[1]), "core: header 1: contents are cut off"),
        ("notes of 300 bytes", (core(notes(300)), GOOD[1]), "notes: note at 176 is cut off"),
        ("a short vector entry", (short, GOOD[1]), "notes: vector registers at 532 have a wrong size"),
        ("vectors without a status", (core(vectors(), other_note()), GOOD[1]), "notes: no thread status"),
        ("a status as a vector entry", (core(field(184, 2, 4)), GOOD[1]), "notes: vector registers at 176 have a wrong size"),
        ("a size without 0x", (core(), "+ 0x10100 20\n"), "log: line 1 is not an mtrace line"),
        ("a block past the top", (core(), "+ 0xfffffffffffffff0 0x10\n"), "log: line 1: block ends past the address space"),
    ]
    found = []
    for name, bad, text in rows:
        found.append(pair(f"of input 1: {name}", "the other input is good", bad, GOOD, f"input 1: {text}"))
        found.append(pair(f"of input 2: {name}", "the other input is good", GOOD, bad, f"input 2: {text}"))
    return found


def of_beginnings():
    """The complete lines of log 1 have to begin log 2, byte by byte."""
    rows = [
        ("another line", "+ 0x10100 0x20\n- 0x10100\n", TWO_BLOCKS),
        ("an empty log", ONE_BLOCK, ""),
        ("no line feed", "+ 0x10100 0x20\n", "+ 0x10100 0x20"),
        ("another caller", "@ a:[0x1] + 0x10100 0x20\n", "@ b:[0x1] + 0x10100 0x20\n"),
        ("another remark", "= Start\n", "= End\n"),
        ("an empty line before", "+ 0x10100 0x20\n", "\n+ 0x10100 0x20\n"),
        ("the logs exchanged", TWO_BLOCKS, "+ 0x10100 0x20\n"),
        ("more zeros", "+ 0x10100 0x20\n", "+ 0x10100 0x020\n"),
    ]
    return [pair(f"beginning: {name}", "the bytes differ, whatever they allocate", (core(), log), (core(), later), NOT_PREFIX)
            for name, log, later in rows]


def cases():
    """All refusals of two inputs."""
    return of_order() + of_each_input() + of_beginnings()
