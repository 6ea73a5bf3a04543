"""Searches with --all-memory: words of memory that can't be written are roots too, where no live block is.

A segment is readable and writable (its p_flags are 6), readable alone (4), or neither (0): after mprotect(2) any of them may hold
what was written before. The core of three headers has a writable segment at 0x10000, and one of 0x800 bytes beside it.
"""

from case import by_plans, one, two, why
from cores import ONE_BLOCK, TWO_BLOCKS, at, core, core_of_three, dumped, field, header, little, rbx, read_only, word, words
from rows_why import ONE, directly, told
from texts import all_marked, held, lost, report

ALL = "--other-heap --all-memory"
PLACE = 0x800  # where the other segment is in the file, and how many bytes it has
HELD = word(0x10008, 0x10100)
UNWRITABLE = {"read-only": 4, "without rights": 0, "to be run": 5, "to be run alone": 1}
WRITABLE = {"writable": 6, "writable alone": 2, "of all rights": 7}


def flags(value):
    """The segment has these p_flags."""
    return field(124, value, 4)


def beside(rights, address, value, start=0x20000):
    """A core with a second segment from the start on, with these p_flags and a word at an address of it."""
    return core_of_three(header(1, rights, PLACE, start, PLACE, PLACE), at(address - start + PLACE, little(value)))


def of_one_segment():
    """The one segment of the core, with all rights that it may have, with the option and without."""
    found = []
    for name, value in (UNWRITABLE | WRITABLE).items():
        image = core(flags(value), HELD)
        without = lost() if name in UNWRITABLE else held()
        found.append(one(f"all memory: {name}", "each word of memory outside blocks counts", image, ONE_BLOCK, held(), ALL))
        found.append(one(f"writable memory: {name}", "words of writable memory count", image, ONE_BLOCK, without))
    return found


def of_two_segments():
    """A segment beside the writable one: above it and below it."""
    found = []
    for place, start in (("above", 0x20000), ("below", 0x8000)):
        for name, value in UNWRITABLE.items():
            image = beside(value, start + 8, 0x10100, start)
            found.append(one(f"all memory: {name}, {place}", "its word leads to the block", image, ONE_BLOCK, held(), ALL))
            found.append(one(f"writable memory: {name}, {place}", "its word does not count", image, ONE_BLOCK, lost()))
    last = beside(4, 0x207F8, 0x10100)
    return [*found, one("all memory: the last word of a segment", "it is whole in the core", last, ONE_BLOCK, held(), ALL),
            one("all memory: no root leads there", "more memory, and no pointer in it", beside(4, 0x20008, 0x20000), ONE_BLOCK,
                lost(), ALL)]


def of_blocks():
    """Blocks in memory that can't be written: their words are theirs, and no roots."""
    inside = core(read_only(), word(0x10100, 0x10200))
    chain = core(read_only(), words((0x10008, 0x10100), (0x10100, 0x10200)))
    head = report((2, 48), (0, 0), (2, 48), 1, "caller 2 48 1 ?", "leak 0x10100 32 1 head ?", "leak 0x10200 16 2 held ?")
    straddling = core(read_only(), word(0x10118, 0x10200))
    cut = "+ 0x10100 0x1c\n+ 0x10200 0x10\n"
    two_lost = report((2, 44), (0, 0), (2, 44), 2, "caller 2 44 2 ?", "leak 0x10100 28 1 head ?", "leak 0x10200 16 2 head ?")
    return [
        one("all memory: a word of a live block", "it is the block's, and nothing leads to the block", inside, TWO_BLOCKS, head,
            ALL),
        one("all memory: a chain", "a root leads to the first block, whose word leads to the second", chain, TWO_BLOCKS,
            all_marked(2, 48), ALL),
        one("all memory: a word that sticks out of a block", "half of it is in the block, so it is neither's", straddling, cut,
            two_lost, ALL),
        one("all memory: an empty block", "it has no byte, so the word at its place counts", core(read_only(), HELD),
            "+ 0x10008 0\n+ 0x10100 0x20\n",
            report((2, 32), (1, 32), (1, 0), 1, "caller 1 0 1 ?", "leak 0x10008 0 1 head ?"), ALL),
    ]


def of_counts():
    """What is not dumped is told of writable memory alone, with the option too."""
    cut = (dumped(0x800), HELD)
    rows = [("writable", core(*cut), 2048), ("read-only", core(read_only(), *cut), 0)]
    found = [one(f"all memory: half dumped, {name}", "what the core lacks of writable memory is told", image, ONE_BLOCK,
                 held(undumped=undumped), ALL) for name, image, undumped in rows]
    beyond = core(read_only(), dumped(0x800), word(0x10900, 0x10100))
    return [*found, one("all memory: a word past what was dumped", "it is not in the core", beyond, ONE_BLOCK, lost(), ALL),
            one("all memory: a register", "registers are roots as ever", core(read_only(), rbx(0x10100)), ONE_BLOCK, held(),
                ALL)]


def of_other_options():
    """What --skip-freed and --skip-links leave out is left out of all memory."""
    stale = core(read_only(), word(0x10108, 0x10200))
    given_back = TWO_BLOCKS + "- 0x10100\n"
    leaked = ("caller 1 16 1 ?", "leak 0x10200 16 2 head ?")
    link = core(read_only(), words((0x100F8, 0x31), (0x10008, 0x10120), (0x10138, 0xFFF8)))
    block = "+ 0x10100 0x20\n"
    lost_link = report((1, 32), (0, 0), (1, 32), 1, "caller 1 32 1 ?", "leak 0x10100 32 1 head ?")
    return [
        one("all memory: freed memory", "freed memory is a root as any other", stale, given_back, all_marked(1, 16), ALL),
        one("all memory without freed memory", "the 4 words of the first block are left out", stale, given_back,
            report((1, 16), (0, 0), (1, 16), 1, *leaked, freed=4), ALL + " --skip-freed"),
        one("writable memory without freed memory", "no place in memory has a root word, so none is left out", stale,
            given_back, report((1, 16), (0, 0), (1, 16), 1, *leaked, freed=0), "--other-heap --skip-freed"),
        one("all memory: a link", "a link is a word as any other", link, block, all_marked(1, 32), ALL),
        one("all memory without links", "the words around tell that it is malloc's", link, block, lost_link,
            ALL + " --skip-links"),
        one("all memory by listed offsets", "8 bytes in, which the list has not", core(read_only(), word(0x10008, 0x10108)),
            ONE_BLOCK, lost(), ALL + " --displace 16"),
    ]


def of_two_cores():
    """Words of memory that can't be written count in the first core and in the second, or in neither."""
    first, second = core(read_only(), HELD), core(read_only())
    both = "both cores are searched with the same options"
    return [
        two("all memory: held in the first core", both + ", and what was held is kept", (first, ONE_BLOCK), (second, ONE_BLOCK),
            held(new=(0, 0), reread=4), ALL),
        two("writable memory: held in the first core", "no word counts in either", (first, ONE_BLOCK), (second, ONE_BLOCK),
            lost(new=(0, 0), reread=0)),
        two("all memory: held in the second core", both, (second, ONE_BLOCK), (first, ONE_BLOCK), held(new=(0, 0), reread=0),
            ALL),
        two("writable memory: held in the second core", "no word counts in either", (second, ONE_BLOCK), (first, ONE_BLOCK),
            lost(new=(0, 0), reread=0)),
        two("all memory: made read-only between the cores", "the word counts in both", (core(HELD), ONE_BLOCK),
            (first, ONE_BLOCK), held(new=(0, 0), reread=0), ALL),
        two("writable memory: made read-only between the cores", "it was held when the first core was taken", (core(HELD),
            ONE_BLOCK), (first, ONE_BLOCK), held(new=(0, 0), reread=0)),
    ]


def of_questions():
    """`why` names the word in memory that can't be written."""
    found = []
    for name, value in UNWRITABLE.items():
        image = core(flags(value), HELD)
        found.append(why(f"why: all memory, {name}", "the word is a root", image, ONE_BLOCK, "0x10100",
                         directly(ONE, "0x10008", 0x10100), "--all-memory"))
        found.append(why(f"why: writable memory, {name}", "no root leads to it", image, ONE_BLOCK, "0x10100",
                         told(ONE, "leaked")))
    above = why("why: all memory, the other segment", "its word is the root", beside(4, 0x20010, 0x10110), ONE_BLOCK, "0x10100",
                directly(ONE, "0x20010", 0x10110), "--all-memory")
    return [*found, above]


def cases():
    """All searches with --all-memory, each by several plans, and questions."""
    tables = (of_one_segment, of_two_segments, of_blocks, of_counts, of_other_options, of_two_cores)
    return by_plans([case for table in tables for case in table()]) + of_questions()
