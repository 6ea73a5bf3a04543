"""Each set of the options that say which words keep a block, with each subcommand.

One core has a block for each option, which a word holds that only this option leaves out, or lets count: with any set of
them each block is held or lost by its own option alone.
"""

from itertools import combinations

from case import one, two, why
from cores import at, core, core_of_three, header, little, registers, words
from rows_why import directly, told
from texts import report

LOG = "+ 0x10100 0x20\n+ 0x10200 0x28\n+ 0x10300 0x20\n+ 0x10400 0x20\n+ 0x10500 0x20\n- 0x10500\n+ 0x10600 0x20\n+ 0x10680 0x20\n"
PLACE = 0x800  # where the read-only segment at 0x20000 is in the file, and how many bytes it has
# The block, its size and line; the option; whether the block is held without it; and the place and value of the word.
BLOCKS = ((0x10100, 32, 1, "--skip-freed", True, 0x10508, 0x10100),
          (0x10200, 40, 2, "--skip-links", True, 0x10018, 0x10220),
          (0x10300, 32, 3, "--all-memory", False, 0x20008, 0x10310),
          (0x10400, 32, 4, "--skip-ends", True, 0x10FF0, 0x10420),
          (0x10600, 32, 7, "--skip-slack", True, 0x10430, 0x10610),
          (0x10680, 32, 8, "--skip-dead-stack", True, 0x10708, 0x10690))
OPTIONS = tuple(block[3] for block in BLOCKS)
# A list of free chunks: the size word before the block that is led to, and the chunk's word that leads back.
CHUNK = ((0x101F8, 0x31), (0x10238, 0x10008))
# The size word before the block whose slack holds a word, and the next chunk's, by which it is in use.
SLACK = ((0x103F8, 0x41), (0x10438, 0x21))
# The record of the thread's stack, which begins at 0x10700. Its 16 words below rsp are dead.
STACK = ((0x107A0, 0x10700), (0x107A8, 0x200))


def image():
    """The core with a word for each block."""
    segment = header(1, 4, PLACE, 0x20000, PLACE, PLACE)
    inside = [(place, value) for *_, place, value in BLOCKS if place < 0x20000]
    *_, place, value = BLOCKS[2]
    return core_of_three(segment, words(*inside, *CHUNK, *SLACK, *STACK),
                         registers(at=232, rsp=0x10780, fs_base=0x10790), at(place - 0x20000 + PLACE, little(value)))


def is_held(block, options):
    """Whether the block is held if these options are given."""
    return block[4] != (block[3] in options)


def answer(options, **others):
    """The report with these options."""
    held = [block for block in BLOCKS if is_held(block, options)]
    lost = [block for block in BLOCKS if not is_held(block, options)]
    size = lambda blocks: (len(blocks), sum(block[1] for block in blocks))
    rows = [f"leak {start:#x} {size} {line} head ?" for start, size, line, *_ in lost]
    callers = [f"caller {len(lost)} {size(lost)[1]} {len(lost)} ?"] if lost else []
    freed = 4 if "--skip-freed" in options else None
    dead = 16 if "--skip-dead-stack" in options else None
    return report((6, 200), size(held), size(lost), len(lost), *callers, *rows, freed=freed, dead=dead, **others)


def cases_of(options):
    """Searches of one core and of two, and a question for each block."""
    name, given = " ".join(options) or "none", " ".join(options)
    turned = " ".join(reversed(options))
    reason = "each option speaks of one block's word"
    found = [one(f"options: {name}", reason, image(), LOG, answer(options), f"--other-heap {given}"),
             two(f"options: two cores, {name}", reason, (core(), LOG), (image(), LOG), answer(options, new=(0, 0), reread=0),
                 f"{turned} --other-heap")]
    for block in BLOCKS:
        start, size, line, _, _, place, value = block
        asked = f"{start:#x} {size} {line} ?"
        told_of = directly(asked, f"{place:#x}", value) if is_held(block, options) else told(asked, "leaked")
        found.append(why(f"options: why {start:#x}, {name}", reason, image(), LOG, f"{start:#x}", told_of, turned))
    return found


def cases():
    """All sets of the options."""
    sets = [chosen for count in range(len(OPTIONS) + 1) for chosen in combinations(OPTIONS, count)]
    return [case for chosen in sets for case in cases_of(chosen)]
