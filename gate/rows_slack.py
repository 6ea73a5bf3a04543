"""Searches with --skip-slack: words in what malloc gave a live block past its size are no roots.

The block of 8 bytes at 0x10100 has its size word at 0x100f8. Its chunk has 32 bytes, of which it can have 24: its slack is two
words, and the next chunk's size word at 0x10118 says that the chunk is in use. A word of the slack leads to the block at 0x10200.
"""

from case import by_plans, one, two, why
from cores import core, rbx, word, words
from rows_why import directly, told
from texts import report

SMALL = "+ 0x10100 0x8\n"
SIZE, NEXT = (0x100F8, 0x21), (0x10118, 0x21)
STALE = (0x10108, 0x10200)
SLACK = "--other-heap --skip-slack"
BOTH = "--other-heap --skip-freed --skip-slack"


def image(*set_words, holds=0x10100):
    """A core with these words, and a register that leads to the first block."""
    return core(words(*set_words), rbx(holds))


def lost(size=8, line=2, **others):
    """The report if the block at 0x10200 leaked, and the other, of that size, is held."""
    return report((2, 16 + size), (1, size), (1, 16), 1, "caller 1 16 1 ?", f"leak 0x10200 16 {line} head ?", **others)


def held(size=8, **others):
    """The report if both blocks are held."""
    return report((2, 16 + size), (2, 16 + size), (0, 0), 0, **others)


def log(size):
    """The log of a block of that size at 0x10100, and of one of 16 bytes at 0x10200."""
    return f"+ 0x10100 {size:#x}\n+ 0x10200 0x10\n"


def left_out():
    """Words that lie in slack: the second block leaks with the option, and without it is held. Name, core, size of the first."""
    return [
        ("the first word", image(SIZE, NEXT, STALE), 8),
        ("the last word", image(SIZE, NEXT, (0x10110, 0x10200)), 8),
        ("past a size that is no multiple of 8", image(SIZE, NEXT, (0x10110, 0x10200)), 9),
        ("an empty block", image(SIZE, NEXT, (0x10100, 0x10200)), 0),
        ("a chunk of 32 bytes more", image((0x100F8, 0x41), (0x10138, 0x21), (0x10130, 0x10200)), 8),
        ("another arena", image((0x100F8, 0x25), NEXT, STALE), 8),
        ("the last word of a mapping", image((0x100F8, 0x102), (0x101E8, 0x10200)), 0x20),
        ("the first word of a mapping", image((0x100F8, 0x102), (0x10120, 0x10200)), 0x20),
    ]


def counted():
    """Words that do not, and why: the second block is held with the option too."""
    return [
        ("the next chunk's size word", "it is malloc's own, past the slack", image(SIZE, (0x10118, 0x10201)), 8),
        ("the word before the block", "it is its size word", image((0x10118, 0x21), (0x100F8, 0x21), (0x100F0, 0x10200)), 8),
        ("all bytes asked for", "24 bytes leave no slack", image(SIZE, NEXT, (0x10118, 0x10201)), 24),
        ("the end of a mapping", "its last 16 bytes are before the block", image((0x100F8, 0x102), (0x101F0, 0x10200)), 0x20),
        ("a chunk that is free", "the next chunk says so, so the block is a misfit", image(SIZE, (0x10118, 0x20), STALE), 8),
        ("a chunk of another size", "malloc gives 32 bytes more at most", image((0x100F8, 0x61), (0x10158, 0x21), STALE), 8),
        ("another allocator", "no size word is there", image(STALE), 8),
    ]


def beside_others():
    """Beside registers, words of blocks and freed memory."""
    again = "+ 0x10100 0x18\n- 0x10100\n" + SMALL + "+ 0x10200 0x10\n"
    in_block = image(SIZE, NEXT, (0x10100, 0x10200))
    both = image(SIZE, NEXT, STALE)
    return [
        one("slack: a register beside it", "registers stay roots", image(SIZE, NEXT, STALE, holds=0x10200), log(8),
            report((2, 24), (1, 16), (1, 8), 1, "caller 1 8 1 ?", "leak 0x10100 8 1 head ?"), SLACK),
        one("slack: a word of the block", "what was asked for is scanned as ever", in_block, log(8), held(), SLACK),
        one("slack: another root word", "only words in slack are left out", image(SIZE, NEXT, STALE, (0x10008, 0x10208)), log(8),
            held(), SLACK),
        one("slack and freed memory", "the two words are freed, and counted as that", both, again, lost(line=4, freed=2), BOTH),
        one("slack beside freed memory", "without --skip-freed no line tells of it", both, again, lost(line=4), SLACK),
        one("slack and freed memory: nothing was given back", "it is in slack alone", both, log(8), lost(freed=0),
            BOTH),
    ]


def of_two_cores():
    """In both cores, each by its own log."""
    stale = image(SIZE, NEXT, STALE)
    grown = "+ 0x10100 0x18\n+ 0x10200 0x10\n"
    later = log(8) + "+ 0x10300 0x8\n"
    new = report((3, 32), (2, 16), (1, 16), 1, "caller 1 16 1 ?", "leak 0x10200 16 2 head ?", new=(1, 8), reread=0)
    return [
        two("slack: in both cores", "the third block is new", (stale, log(8)), (stale, later), new, SLACK),
        two("slack counted: in both cores", "without the option the word counts", (stale, log(8)), (stale, later),
            report((3, 32), (3, 32), (0, 0), 0, new=(1, 8), reread=0)),
        two("slack: held when the first core was taken", "it was marked then, and so is kept",
            (image(SIZE, NEXT, (0x10008, 0x10200)), log(8)), (stale, log(8)), held(new=(0, 0), reread=3), SLACK),
        two("slack: in the first core alone", "there it is left out, and in the second another word leads to the block",
            (stale, log(8)), (image(SIZE, NEXT, (0x10008, 0x10200)), log(8)), held(new=(0, 0), reread=1), SLACK),
        two("slack: all asked for", "24 bytes leave none", (core(), grown), (image(SIZE, NEXT, (0x10118, 0x10201)), grown),
            held(24, new=(0, 0), reread=0), SLACK),
    ]


def of_why():
    """What holds the second block, with the option and without."""
    stale, asked = image(SIZE, NEXT, STALE), "0x10200 16 2 ?"
    reason = "the words that count are those of the options"
    return [
        why("slack: why, without the option", reason, stale, log(8), "0x10200", directly(asked, "0x10108", 0x10200)),
        why("slack: why, with it", reason, stale, log(8), "0x10200", told(asked, "leaked"), "--skip-slack"),
        why("slack: why, of a misfit", reason, image(STALE), log(8), "0x10200", directly(asked, "0x10108", 0x10200),
            "--skip-slack"),
        why("slack: why, the next chunk's size word", reason, image(SIZE, (0x10118, 0x10201)), log(8), "0x10200",
            directly(asked, "0x10118", 0x10201), "--skip-slack"),
    ]


def cases():
    """All searches with --skip-slack, each by several plans, and what holds a block."""
    found = beside_others() + of_two_cores()
    for name, of_core, size in left_out():
        found.append(one(f"slack: {name}", "no byte of the word was asked for", of_core, log(size), lost(size), SLACK))
        found.append(one(f"slack counted: {name}", "without the option the word counts", of_core, log(size), held(size)))
    for name, reason, of_core, size in counted():
        found.append(one(f"no slack: {name}", reason, of_core, log(size), held(size), SLACK))
    return by_plans(found) + of_why()
