"""Searches with --skip-links: malloc's own pointers to free chunks, and to the tops of its heaps, are no roots.

The block of 32 bytes at 0x10100 has its size word at 0x100f8; its least chunk has 48 bytes, so the next header is at 0x10120.
A list's head at 0x10008 leads there, and the chunk's word at 0x10138 leads back, 16 bytes before the head.
"""

from case import by_plans, one, two
from cores import core, rbx, word, words
from texts import all_marked, report

BLOCK = "+ 0x10100 0x20\n"
SIZE = word(0x100F8, 0x31)
HEAD = word(0x10008, 0x10120)
BACK = word(0x10138, 0xFFF8)
LINKS = "--other-heap --skip-links"
BOTH = "--other-heap --skip-links --skip-freed"


def lost(size=32, **others):
    """The report if the block at 0x10100 leaked."""
    return report((1, size), (0, 0), (1, size), 1, f"caller 1 {size} 1 ?", f"leak 0x10100 {size} 1 head ?", **others)


def left_out():
    """Words that are links: the block leaks with the option, and without it is held."""
    at_end = words((0x100F8, 0x21), (0x10008, 0x10110), (0x10128, 0xFFF8))
    return [
        ("the first chunk of a list", core(SIZE, HEAD, BACK), BLOCK, 32),
        ("the last chunk of a list", core(SIZE, HEAD, word(0x10130, 0xFFF0)), BLOCK, 32),
        ("the top of a heap", core(SIZE, HEAD, word(0x10128, 0xEE1)), BLOCK, 32),
        ("the top of another arena", core(SIZE, HEAD, word(0x10128, 0xEE5)), BLOCK, 32),
        ("a top of two pages", core(SIZE, HEAD, word(0x10128, 0x1EE1)), BLOCK, 32),
        ("one past the end", core(at_end), "+ 0x10100 0x18\n", 24),
    ]


def counted():
    """Words that are none, and why: the block is held with the option too."""
    at_end = words((0x100F8, 0x21), (0x10008, 0x10110), (0x10128, 0xFFF8))
    start = core(words((0x10018, 0x10010), (0x10028, 0x10008)))
    in_block = words((0x10008, 0x10200), (0x10200, 0x10120), (0x10138, 0x101F0))
    odd = core(words((0x10100, 0x31), (0x10008, 0x10128), (0x10140, 0xFFF8)))
    return [
        ("a size word after a free chunk", "a top's size word says that the chunk before is in use",
         core(SIZE, HEAD, word(0x10128, 0xEE0)), BLOCK, 1, 32),
        ("a size word of a mapping", "a top is no mapping", core(SIZE, HEAD, word(0x10128, 0xEE3)), BLOCK, 1, 32),
        ("a chunk that ends within a page", "a top ends at the end of a page", core(SIZE, HEAD, word(0x10128, 0xED1)), BLOCK, 1,
         32),
        ("a chunk that does not lead back", "nothing says that the word is malloc's", core(SIZE, HEAD), BLOCK, 1, 32),
        ("a chunk that leads back to another place", "the word stands at 0x10010", core(SIZE, word(0x10010, 0x10120), BACK),
         BLOCK, 1, 32),
        ("a pointer to the start", "a link leads to the next header", core(SIZE, word(0x10008, 0x10100), BACK), BLOCK, 1, 32),
        ("a register beside a link", "registers are no links", core(at_end, rbx(0x10110)), "+ 0x10100 0x18\n", 1, 24),
        ("a block that is mapped by itself", "it has no next chunk", core(word(0x100F8, 0x33), HEAD, BACK), BLOCK, 1, 32),
        ("a chunk of another size", "its next header is at 0x10130", core(word(0x100F8, 0x41), HEAD, BACK), BLOCK, 1, 32),
        ("no size word", "the block begins the segment", start, "+ 0x10000 0x10\n", 1, 16),
        ("a word of a block", "only root words are links", core(SIZE, in_block), BLOCK + "+ 0x10200 0x10\n", 2, 48),
        ("a block that malloc would not give", "its address is no multiple of 16", odd, "+ 0x10108 0x20\n", 1, 32),
    ]


def beside_others():
    """A link that leads to two blocks, or to one though the next chunk has a live block."""
    image = core(SIZE, HEAD, BACK)
    touching = report((2, 40), (1, 8), (1, 32), 1, "caller 1 32 1 ?", "leak 0x10100 32 1 head ?")
    chunk = report((2, 48), (1, 32), (1, 16), 1, "caller 1 16 1 ?", "leak 0x10130 16 2 head ?")
    next_block = BLOCK + "+ 0x10130 0x10\n"
    why = "the chunk is not free, so the word counts"
    return [
        one("links: the start of another block", "of the second block the word is a pointer", image, BLOCK + "+ 0x10120 0x8\n",
            touching, LINKS),
        one("links: a live block in the next chunk", why, image, next_block, chunk, LINKS),
        one("links counted: a live block in the next chunk", why, image, next_block, chunk),
    ]


def of_two_cores():
    """The same list in both cores, and a new block."""
    image = core(SIZE, HEAD, BACK)
    new = report((2, 40), (1, 8), (1, 32), 1, "caller 1 32 1 ?", "leak 0x10100 32 1 head ?", new=(1, 8), reread=0)
    freed = new.replace("new ", "freed 0\nnew ")
    return [
        two("links: two cores", "only the new block is marked", (image, BLOCK), (image, BLOCK + "+ 0x10300 0x8\n"), new, LINKS),
        two("links and freed memory: two cores", "only the new block is marked", (image, BLOCK),
            (image, BLOCK + "+ 0x10300 0x8\n"), freed, BOTH),
        two("links: a new block in the next chunk", "the second core's chunk is in use, so its word counts", (image, BLOCK),
            (image, BLOCK + "+ 0x10130 0x8\n"), all_marked(2, 40, new=(1, 8), reread=0), LINKS),
        two("links and freed memory: a new block in the next chunk", "as without freed memory: nothing was given back",
            (image, BLOCK),
            (image, BLOCK + "+ 0x10130 0x8\n"), all_marked(2, 40, freed=0, new=(1, 8), reread=0), BOTH),
        two("links counted: a new block in the next chunk", "without the option the word counts", (image, BLOCK),
            (image, BLOCK + "+ 0x10130 0x8\n"), all_marked(2, 40, new=(1, 8), reread=0)),
        two("links counted: two cores", "without the option the word counts", (image, BLOCK),
            (image, BLOCK + "+ 0x10300 0x8\n"),
            all_marked(2, 40, new=(1, 8), reread=0)),
    ]


def cases():
    """All searches with --skip-links, each by several plans."""
    found = beside_others() + of_two_cores()
    for name, image, log, size in left_out():
        why = "the word is malloc's, as the words around tell"
        found.append(one(f"links: {name}", why, image, log, lost(size), LINKS))
        found.append(one(f"links and freed memory: {name}", why, image, log, lost(size, freed=0), BOTH))
        found.append(one(f"links counted: {name}", "without the option the word counts", image, log, all_marked(1, size)))
    for name, reason, image, log, blocks, size in counted():
        found.append(one(f"no link: {name}", reason, image, log, all_marked(blocks, size), LINKS))
        found.append(one(f"no link, no freed memory: {name}", reason, image, log, all_marked(blocks, size, freed=0), BOTH))
    return by_plans(found)
