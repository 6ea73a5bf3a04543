"""Signs that core and log don't belong together: misfits, --check, warnings, --strict and --other-heap.

glibc keeps the size of a chunk, and three flags, in the word before its block; the next chunk's word says whether this one is in
use. The least chunk of a block of 32 bytes has 48, and one of up to 32 bytes more fits too.
"""

from case import by_plans, one, two
from cores import ONE_BLOCK, TWO_BLOCKS, core, rbx, word, words
from texts import all_marked, displaced, held, lost, misfits, no_block, report, torn, unknown

CHUNK = words((0x100F8, 0x31), (0x10128, 0x21))
OF_32 = (0x10100, 32)


def chunks():
    """Words of the core, the block, whether it fits, and why."""
    return [
        ("a chunk in use", [(0x100F8, 0x31), (0x10128, 0x21)], OF_32, True,
         "its size is the least, and the next says that it is in use"),
        ("16 bytes more", [(0x100F8, 0x41), (0x10138, 1)], OF_32, True, "a chunk may have 16 bytes more"),
        ("32 bytes more", [(0x100F8, 0x51), (0x10148, 1)], OF_32, True, "or 32"),
        ("48 bytes more", [(0x100F8, 0x61), (0x10158, 1)], OF_32, False, "malloc would have cut it"),
        ("16 bytes too few", [(0x100F8, 0x21), (0x10118, 1)], OF_32, False, "the block is larger"),
        ("a free chunk", [(0x100F8, 0x31), (0x10128, 0x20)], OF_32, False, "the next chunk says that it is free"),
        ("another arena", [(0x100F8, 0x35), (0x10128, 1)], OF_32, True, "flag 4 is the arena's"),
        ("a mapping", [(0x100F8, 0x1002)], OF_32, True, "flag 2: mapped by itself, and no chunk follows"),
        ("the least mapping", [(0x100F8, 0x32)], OF_32, True, "48 bytes hold the block and the header"),
        ("a small mapping", [(0x100F8, 0x22)], OF_32, False, "32 bytes don't"),
        ("the largest mapping", [(0x100F8, 0x1032)], OF_32, True, "a page more at most"),
        ("a large mapping", [(0x100F8, 0x1042)], OF_32, False, "more than a page more"),
        ("no chunk", [], OF_32, False, "the words are 0"),
        ("no word before the block", [(0x10018, 1)], (0x10000, 8), False, "the segment begins with the block"),
        ("not a multiple of 16", [(0x10100, 0x21), (0x10120, 1)], (0x10108, 8), False, "malloc gives multiples of 16"),
        ("no next word", [(0x10FE8, 0x21)], (0x10FF0, 8), False, "it would be after the segment"),
        ("an empty block", [(0x100F8, 0x21), (0x10118, 1)], (0x10100, 0), True, "the least chunk of all has 32 bytes"),
    ]


def of_chunks():
    """Each block without --check, with it, and with another heap, of which nothing is said."""
    found = []
    for name, pairs, (start, size), fits, reason in chunks():
        image, log = core(words(*pairs)), f"+ {start:#x} {size:#x}\n" if size else f"+ {start:#x} 0\n"
        lines = [f"caller 1 {size} 1 ?", f"leak {start:#x} {size} 1 head ?"]
        listed = [] if fits else [f"misfit {start:#x} {size} 1 ?"]
        totals = ((1, size), (0, 0), (1, size), 1)
        warnings = "" if fits else misfits(1, 1)
        found.append(one(f"fit: {name}", reason, image, log, report(*totals, *lines), "", warnings))
        found.append(one(f"fit, listed: {name}", reason, image, log, report(*totals, *lines, *listed, misfits=len(listed)),
                         "--check", warnings))
        found.append(one(f"fit, another heap: {name}", "its heap is not compared", image, log, report(*totals, *lines)))
    return found


def of_lists():
    """Lists of misfits, of blocks that leak and of blocks that are held."""
    three = "@ a:[0x1] + 0x10300 0x18\n@ b:[0x2] + 0x10100 0x20\n@ c:[0x3] + 0x10200 0x10\n"
    image = core(CHUNK, words((0x102F8, 0x21), (0x10318, 0x20)), rbx(0x10200))
    lines = ("caller 1 32 1 b:[0x2]", "caller 1 24 1 a:[0x1]", "leak 0x10100 32 2 head b:[0x2]",
             "leak 0x10300 24 1 head a:[0x1]")
    listed = ("misfit 0x10200 16 3 c:[0x3]", "misfit 0x10300 24 1 a:[0x1]")
    first = report((2, 48), (1, 16), (1, 32), 1, "caller 1 32 1 ?", "leak 0x10100 32 1 head ?", "misfit 0x10200 16 2 ?",
                   new=(1, 16), reread=0, misfits=1)
    return [
        one("a misfit that is held", "the chunk of 0x10300 is free, and 0x10200 has none", image, three,
            report((3, 72), (1, 16), (2, 56), 2, *lines, *listed, misfits=2), "--check", misfits(2, 3)),
        two("misfits of two cores", "only those of the second core are listed; both are warned of",
            (core(), "+ 0x10100 0x20\n"),
            (core(CHUNK), TWO_BLOCKS), first, "--check", misfits(1, 1) + misfits(1, 2, 2)),
    ]


def of_warnings():
    """Each warning, without and with --strict. With another heap that of misfits is not given, and the others are."""
    lost_here = report((1, 32), (0, 0), (1, 32), 1, "caller 1 32 1 ?", "leak 0x10100 32 1 head ?")
    late, over = (lost_here.replace("leak 0x10100 32 1 head", "leak 0x10100 32 2 head") for _ in range(2))
    rows = [
        ("no warning", core(CHUNK), ONE_BLOCK, lost(), "", ""),
        ("a misfit", core(), ONE_BLOCK, lost(), misfits(1, 1), ""),
        ("a misfit that does not leak", core(word(0x10008, 0x10100)), ONE_BLOCK, held(), misfits(1, 1), ""),
        ("no live block", core(), "", report((0, 0), (0, 0), (0, 0), 0), no_block(), no_block()),
        ("a torn log", core(CHUNK), "+ 0x10100 0x20\n- 0x101", lost_here.replace("torn 0", "torn 1"), torn(), torn()),
        ("a give-back of nothing", core(CHUNK), "- 0x10300\n+ 0x10100 0x20\n", late.replace("unknown 0", "unknown 1"),
         unknown(1), unknown(1)),
        ("an allocation over a block", core(CHUNK), "+ 0x100f0 0x20\n+ 0x10100 0x20\n",
         over.replace("displaced 0", "displaced 1"),
         displaced(1), displaced(1)),
        ("all but no live block", core(), "- 0x1\n- 0x2\n- 0x3\n+ 0x100f0 0x20\n+ 0x10100 0x20\n+", lost_here.replace(
            "leak 0x10100 32 1 head", "leak 0x10100 32 5 head").replace("unknown 0 displaced 0 torn 0",
                                                                        "unknown 3 displaced 1 torn 1"),
         torn() + unknown(3) + displaced(1) + misfits(1, 1), torn() + unknown(3) + displaced(1)),
        ("all but misfits", core(), "- 0x1\n+ 0x100f0 0x20\n+ 0x10100 0x20\n- 0x10100\n+", report(
            (0, 0), (0, 0), (0, 0), 0, signs=(1, 1, 1)), *[no_block() + torn() + unknown(1) + displaced(1)] * 2),
    ]
    return [case for row in rows for case in warned(*row)]


def warned(name, image, log, answer, warnings, others):
    """The row without and with --strict, and with another heap."""
    strict, reason = (3 if warnings else None), "a line for each sign, in order; with --strict the status of a warning is 3"
    elsewhere = 3 if others else None
    return [
        one(f"warned: {name}", reason, image, log, answer, "", warnings),
        one(f"warned, strict: {name}", reason, image, log, answer, "--strict", warnings, strict),
        one(f"warned, another heap: {name}", reason, image, log, answer, "--other-heap", others),
        one(f"warned, another heap, strict: {name}", reason, image, log, answer, "--other-heap --strict", others, elsewhere),
    ]


def of_two_inputs():
    """Each of two inputs has its own warnings, those of the first before those of the second."""
    fitting, empty = core(CHUNK), core()
    rows = [("neither", fitting, fitting, ""), ("the first", empty, fitting, misfits(1, 1)),
            ("the second", fitting, empty, misfits(1, 1, 2)),
            ("both", empty, empty, misfits(1, 1) + misfits(1, 1, 2))]
    found = []
    for name, first, second, warnings in rows:
        answer, reason = lost(new=(0, 0), reread=0), "nothing led to the block in either core"
        inputs = ((first, ONE_BLOCK), (second, ONE_BLOCK))
        found.append(two(f"warned of two inputs: {name}", reason, *inputs, answer, "", warnings))
        found.append(two(f"warned of two inputs, strict: {name}", reason, *inputs, answer, "--strict", warnings,
                         3 if warnings else None))
        found.append(two(f"two inputs, another heap, strict: {name}", reason, *inputs, answer, "--other-heap --strict"))
    signs = "- 0x1\n+ 0x10100 0x20\n"
    image = core(CHUNK, word(0x10008, 0x10100))
    return [*found, two("signs of both logs", "the second log has the first one's lines, and its own", (image, signs),
                        (image, signs + "- 0x2\n+"), all_marked(1, 32, signs=(2, 0, 1), new=(0, 0), reread=0), "",
                        unknown(1) + torn(2) + unknown(2, 2))]


def of_strict_and_check():
    """Both flags, as a script would give them."""
    answer = held(misfits=1) + "misfit 0x10100 32 1 ./a.out:[0x401136]\n"
    return [one("strict and check", "the block is held and has no chunk: 3, though nothing leaked",
                core(word(0x10008, 0x10110)), ONE_BLOCK,
                answer, "--strict --check", misfits(1, 1), 3)]


def cases():
    """All cases of signs. The plan has no part in them; the lists are run by several."""
    return of_chunks() + of_warnings() + of_two_inputs() + by_plans(of_lists() + of_strict_and_check())
