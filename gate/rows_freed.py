"""Searches with --skip-freed: words of memory that was in a small block, and is in none, are no roots."""

from case import by_plans, one, two
from cores import TWO_BLOCKS, core, rbx, word
from texts import all_marked, displaced, report, unknown

GIVEN_BACK = TWO_BLOCKS + "- 0x10100\n"
STALE = word(0x10108, 0x10200)  # a word of the first block leads to the second
AT_START = word(0x10100, 0x10200)
SMALL = 0x1FFFF  # one byte below the size that glibc maps by itself
FREED = "--other-heap --skip-freed"


def leaked(line, freed, address=0x10200, **others):
    """The report if the one block that is left leaked."""
    lines = ("caller 1 16 1 ?", f"leak {address:#x} 16 {line} head ?")
    return report((1, 16), (0, 0), (1, 16), 1, *lines, freed=freed, **others)


def rows():
    """Name, why, core, log, the report with the option, and the warnings."""
    twice = "+ 0x10100 0x4\n+ 0x10104 0x4\n- 0x10100\n- 0x10104\n+ 0x10200 0x10\n"
    mapped = "+ 0x10100 {:#x}\n- 0x10100\n+ 0x40000 0x10\n"
    smaller = "+ 0x10100 0x20\n- 0x10100\n+ 0x10100 0x10\n+ 0x10200 0x10\n"
    moved = "+ 0x10200 0x10\n< 0x10300\n> 0x10100 0x20\n- 0x10100\n"
    far = core(word(0x10100, 0x40000))
    two_lost = report((2, 32), (0, 0), (2, 32), 1, "caller 2 32 1 ?", "leak 0x10100 16 3 head ?", "leak 0x10200 16 4 held ?",
                      freed=2)
    return [
        ("a word in a block that was given back", "its 32 bytes are 4 words", core(STALE), GIVEN_BACK, leaked(2, 4), ""),
        ("a word that is half outside", "of 12 bytes only one word is whole", core(STALE),
         "+ 0x10100 0xc\n+ 0x10200 0x10\n- 0x10100\n", all_marked(1, 16, freed=1), ""),
        ("a word in two blocks that were given back", "two of 4 bytes that touch are one word", core(AT_START), twice,
         leaked(5, 1), ""),
        ("a block that is mapped by itself", "131072 bytes are not small", far, mapped.format(SMALL + 1),
         all_marked(1, 16, freed=0), ""),
        ("the largest block that is not", "480 whole words of it are in the segment", far, mapped.format(SMALL),
         leaked(3, 480, 0x40000), ""),
        ("a word in a displaced block", "it ended where the other began: 16 bytes are left of it", core(word(0x10100, 0x10110)),
         "+ 0x10100 0x20\n+ 0x10110 0x10\n", leaked(2, 2, 0x10110, signs=(0, 1, 0)), displaced(1)),
        ("a register beside a word in freed memory", "registers stay roots", core(STALE, rbx(0x10200)), GIVEN_BACK,
         all_marked(1, 16, freed=4), ""),
        ("a smaller block where one was given back", "the last 16 bytes of the first are in no block",
         core(STALE, word(0x10118, 0x10100)), smaller, two_lost, ""),
        ("a block that moved in and was given back", "realloc's lines allocate and give back too", core(AT_START), moved,
         leaked(1, 4, signs=(1, 0, 0)), unknown(1)),
        ("a move that failed", "a failed realloc allocates nothing", core(AT_START), "+ 0x10200 0x10\n! 0x10100 0x20\n",
         all_marked(1, 16, freed=0), ""),
    ]


def of_one_core():
    """Each row with the option, and without it: then each block is marked, and there is no line `freed`."""
    found = []
    for name, reason, image, log, answer, warnings in rows():
        blocks, size = (2, 32) if answer.startswith("blocks 2 ") else (1, 16)
        signs = tuple(int(number) for number in answer.split("\n")[2].split()[1::2])
        found.append(one(f"freed: {name}", reason, image, log, answer, FREED, warnings))
        found.append(one(f"not left out: {name}", "without the option the word counts", image, log,
                         all_marked(blocks, size, signs=signs), warnings=warnings))
    return found


def of_two_cores():
    """In both cores, each by its own log."""
    lost = report((2, 24), (1, 8), (1, 16), 1, "caller 1 16 1 ?", "leak 0x10200 16 2 head ?", freed=4, new=(1, 8), reread=0)
    return [
        two("freed: in both cores", "nothing leads to the second block, and the third is new", (core(STALE), GIVEN_BACK),
            (core(STALE), GIVEN_BACK + "+ 0x10300 0x8\n"), lost, FREED),
        two("freed: held when the first core was taken", "it was marked then, and so is kept",
            (core(STALE, rbx(0x10100)), TWO_BLOCKS),
            (core(STALE), GIVEN_BACK), all_marked(1, 16, freed=4, new=(0, 0), reread=0), FREED),
    ]


def cases():
    """All searches with --skip-freed, each by several plans."""
    return by_plans(of_one_core() + of_two_cores())
