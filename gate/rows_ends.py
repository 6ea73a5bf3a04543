"""Searches with --skip-ends: the address one past a block's last byte no longer leads to it.

The word at 0x10008 is a root. The block of 32 bytes at 0x10100 ends at 0x10120, where another may begin.
"""

from case import by_plans, one, two, why
from cores import ONE_BLOCK, TWO_BLOCKS, core, rbx, word, words
from rows_links import BACK, HEAD, SIZE
from rows_why import directly, told
from texts import all_marked, held, lost, report

PLAIN = "--other-heap"
ENDS = "--other-heap --skip-ends"
END = core(word(0x10008, 0x10120))
NEIGHBORS = "+ 0x10100 0x20\n+ 0x10120 0x10\n"
BEFORE_EMPTY = "+ 0x10100 0x20\n+ 0x10120 0\n"
NO_BYTE = "+ 0x10200 0\n"
NOTHING_HELD = report((1, 0), (0, 0), (1, 0), 1, "caller 1 0 1 ?", "leak 0x10200 0 1 head ?")
TOP = "+ 0xfffffffffffffff0 0xf\n"
TOP_LOST = report((1, 15), (0, 0), (1, 15), 1, "caller 1 15 1 ?", "leak 0xfffffffffffffff0 15 1 head ?")
THREE_BLOCKS = "+ 0x10100 0x20\n+ 0x10120 0x10\n+ 0x10200 0x10\n"
CHAIN = words((0x10008, 0x10200), (0x10200, 0x10120))


def first_lost(blocks, size, **others):
    """The report of this many blocks with this many bytes in all, if the one at 0x10100 leaked and the others are marked."""
    return report((blocks, size), (blocks - 1, size - 32), (1, 32), 1, "caller 1 32 1 ?", "leak 0x10100 32 1 head ?", **others)


def of_one_word():
    """One root word: the report with ends, and without."""
    last = core(word(0x10008, 0x1011F))
    rows = [
        ("a block's end", "only its last byte still leads to it", END, ONE_BLOCK, "", held(), lost()),
        ("a block's last byte", "it is no end", last, ONE_BLOCK, "", held(), held()),
        ("a block's start", "it is no end", core(word(0x10008, 0x10100)), ONE_BLOCK, "", held(), held()),
        ("an end in a register", "registers are words as all others", core(rbx(0x10120)), ONE_BLOCK, "", held(), lost()),
        ("two neighbors", "the end of the first is the start of the second", END, NEIGHBORS, "", all_marked(2, 48),
         first_lost(2, 48)),
        ("an empty block", "its start is its end, and leads to it all the same", core(word(0x10008, 0x10200)), NO_BYTE, "",
         all_marked(1, 0), all_marked(1, 0)),
        ("one past an empty block", "it is neither its start nor its end", core(word(0x10008, 0x10201)), NO_BYTE, "",
         NOTHING_HELD, NOTHING_HELD),
        ("the top of memory", "the greatest word is one past the block's end", core(word(0x10008, (1 << 64) - 1)), TOP, "",
         all_marked(1, 15), TOP_LOST),
        ("an end that is listed", "to the empty block the word leads, and not to the end of the first", END, BEFORE_EMPTY,
         "--displace 32", all_marked(2, 32), first_lost(2, 32)),
        ("a last byte that is listed", "an end is left out, and not what comes before it", last, ONE_BLOCK, "--displace 31",
         held(), held()),
        ("a last byte that is not listed", "ends are not all that is left out", last, ONE_BLOCK, "--displace 32", lost(),
         lost()),
    ]
    return [case for name, reason, image, log, more, plain, inner in rows
            for case in (one(f"ends: {name}", reason, image, log, plain, f"{PLAIN} {more}"),
                         one(f"without ends: {name}", reason, image, log, inner, f"{ENDS} {more}"))]


def of_chains():
    """Ends in words of blocks: they no longer lead on, and hold no leaked block."""
    holder, second = core(word(0x10200, 0x10120)), "leak 0x10200 16 2 head ?"
    return [
        one("ends: a chain by the start of a neighbor", "the word of the third block leads to both", core(CHAIN), THREE_BLOCKS,
            all_marked(3, 64), PLAIN),
        one("without ends: a chain by the start of a neighbor", "the word of the third block leads to the second alone",
            core(CHAIN), THREE_BLOCKS, first_lost(3, 64), ENDS),
        one("ends: held one past the end", "the second leads one past the end of the first", holder, TWO_BLOCKS,
            report((2, 48), (0, 0), (2, 48), 1, "caller 2 48 1 ?", "leak 0x10100 32 1 held ?", second), PLAIN),
        one("without ends: held one past the end", "nothing leads to the first, so it is a head", holder, TWO_BLOCKS,
            report((2, 48), (0, 0), (2, 48), 2, "caller 2 48 2 ?", "leak 0x10100 32 1 head ?", second), ENDS),
    ]


def of_two_cores():
    """The option holds in both cores."""
    kept, later = (END, ONE_BLOCK), (core(), ONE_BLOCK)
    linked, plain = (core(CHAIN), TWO_BLOCKS), (core(word(0x10008, 0x10200)), TWO_BLOCKS)
    return [
        two("ends in the first core", "the end kept the block", kept, later, held(new=(0, 0), reread=4), PLAIN),
        two("without ends in the first core", "nothing kept it", kept, later, lost(new=(0, 0), reread=0), ENDS),
        two("ends in the second core", "a root leads to its end", later, kept, held(new=(0, 0), reread=0), PLAIN),
        two("without ends in the second core", "no root leads to it", later, kept, lost(new=(0, 0), reread=0), ENDS),
        two("ends in a word of a kept block", "it leads to the first block in the second core alone", plain, linked,
            all_marked(2, 48, new=(0, 0), reread=2), PLAIN),
        two("without ends in a word of a kept block", "it is read again, and leads to none", plain, linked,
            first_lost(2, 48, new=(0, 0), reread=2), ENDS),
        two("ends in words of both cores", "the word led to the first block before", linked, linked,
            all_marked(2, 48, new=(0, 0), reread=0), PLAIN),
        two("without ends in words of both cores", "the word leads to none in either", linked, linked,
            first_lost(2, 48, new=(0, 0), reread=0), ENDS),
    ]


def of_answers():
    """What holds a block, asked with ends and without."""
    block = "0x10100 32 1 ?"
    by_word = told("0x10120 16 2 ?", "root 0x10008 holds 0x10200", "block 0x10200 16 3 ?", "word 0x10200 holds 0x10120",
                   "block 0x10120 16 2 ?")
    return [
        why("why: by its end", "the word is one past its last byte", END, "+ 0x10100 0x20\n", "0x10100",
            directly(block, "0x10008", 0x10120)),
        why("why without ends: by its end", "nothing else leads to it", END, "+ 0x10100 0x20\n", "0x10100",
            told(block, "leaked"), "--skip-ends"),
        why("why without ends: by a neighbor's start", "the word leads to the neighbor alone", core(CHAIN), THREE_BLOCKS,
            "0x10100", told(block, "leaked"), "--skip-ends"),
        why("why without ends: a neighbor", "its start leads to it with ends and without", core(CHAIN), THREE_BLOCKS,
            "0x10120", by_word, "--skip-ends"),
    ]


def of_several_options():
    """With --skip-links and --skip-freed too: each leaves out what it leaves out alone."""
    link = core(SIZE, HEAD, BACK)
    return [
        one("without ends: a link", "malloc keeps it one past the block's end", link, "+ 0x10100 0x20\n", first_lost(1, 32),
            ENDS),
        one("without ends and links", "each option leaves it out", link, "+ 0x10100 0x20\n", first_lost(1, 32),
            f"{ENDS} --skip-links"),
        one("without ends, links and freed memory", "no place was freed", link, "+ 0x10100 0x20\n", first_lost(1, 32, freed=0),
            f"{ENDS} --skip-links --skip-freed"),
    ]


def cases():
    """All of them, those of one core by several plans."""
    return [*by_plans(of_one_word()), *by_plans(of_chains()), *by_plans(of_two_cores()), *of_answers(), *of_several_options()]
