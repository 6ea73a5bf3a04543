"""Searches of one core: the worked examples of docs/EXAMPLES.md.

They are run with --other-heap, since the sample has no heap of glibc's: so there is no warning of misfits.
"""

from case import by_plans, one
from cores import (ONE_BLOCK, TWO_BLOCKS, chain, core, core_of_three, dumped, header, raw, rbx, read_only,
                   second_thread, section_count, star, state, vectors, at, little, word, words)
from texts import all_marked, displaced, held, lost, no_block, report, torn, unknown

NOTHING = report((0, 0), (0, 0), (0, 0), 0)
TOP = "+ 0xfffffffffffffff0 0xf\n"
FOUR_CALLERS = ("@ a:[0x1] + 0x10100 0x20\n@ c:[0x3] + 0x10200 0x10\n"
                "@ c:[0x3] + 0x10300 0x18\n@ b:[0x2] + 0x10400 0x28\n")


def of_the_one_block():
    """Examples whose log is the one block of 32 bytes at 0x10100."""
    return [
        one("lost block", "no word leads to the block", core(), ONE_BLOCK, lost()),
        one("held block", "a root word holds its start", core(word(0x10008, 0x10100)), ONE_BLOCK, held()),
        one("one past the end", "0x10120 is one past the last byte, and leads to it", core(word(0x10008, 0x10120)),
            ONE_BLOCK, held()),
        one("two past the end", "0x10121 does not lead to it", core(word(0x10008, 0x10121)), ONE_BLOCK, lost()),
        one("before the start", "0x100ff does not lead to it", core(word(0x10008, 0x100FF)), ONE_BLOCK, lost()),
        one("unaligned pointer", "words stand at multiples of 8, and 0x1000c is none", core(raw(0x1000C, little(0x10100))),
            ONE_BLOCK, lost()),
        one("read-only segment", "words of memory are roots only where it is writable",
            core(read_only(), word(0x10008, 0x10100)), ONE_BLOCK, lost()),
        one("held by a register", "each register is a root", core(rbx(0x10100)), ONE_BLOCK, held()),
        one("held by a register of a second thread", "of each thread", core(second_thread(0x10100)), ONE_BLOCK, held()),
        one("half dumped", "the word at 0x10900 is not in the core, and 0x800 bytes are counted",
            core(dumped(0x800), word(0x10900, 0x10100)), ONE_BLOCK, lost(undumped=2048)),
        one("no writable segment", "another type of header is skipped, so there is no word",
            core(word(0x10008, 0x10100), at(120, little(0x6474E551, 4))), ONE_BLOCK, lost()),
        one("block of an exabyte", "a root word holds its start; only 480 words of it are in the core",
            core(word(0x10008, 0x10100)), "+ 0x10100 0x1000000000000000\n", all_marked(1, 1 << 60)),
    ]


def of_other_logs():
    """Examples with a log of their own."""
    second = "leak 0x10200 16 2 {} ?"
    return [
        one("empty log", "nothing is live, and that is warned of", core(), "", NOTHING, warnings=no_block()),
        one("remarks alone", "remarks change nothing", core(), "= Start\n\n= End\n", NOTHING, warnings=no_block()),
        one("failed malloc", "address 0 is no allocation", core(), "+ (nil) 0x10\n", NOTHING, warnings=no_block()),
        one("two neighbors", "0x10120 is one past the first and the start of the second: both are kept",
            core(word(0x10008, 0x10120)), "+ 0x10100 0x20\n+ 0x10120 0x10\n", all_marked(2, 48)),
        one("ring of two", "they lead to each other, and no root to either; so neither is a head",
            core(words((0x10100, 0x10200), (0x10200, 0x10100))), TWO_BLOCKS,
            report((2, 48), (0, 0), (2, 48), 0, "caller 2 48 0 ?", "leak 0x10100 32 1 held ?", second.format("held"))),
        one("own word", "a word of the block itself makes it no less a head; the second is held by the first",
            core(words((0x10100, 0x10200), (0x10108, 0x10100))), TWO_BLOCKS + "+ 0x10300 0x8\n",
            report((3, 56), (0, 0), (3, 56), 2, "caller 3 56 2 ?", "leak 0x10100 32 1 head ?", second.format("held"),
                   "leak 0x10300 8 3 head ?")),
        one("held one past the end", "the second block leads one past the end of the first",
            core(word(0x10200, 0x10120)), TWO_BLOCKS,
            report((2, 48), (0, 0), (2, 48), 1, "caller 2 48 1 ?", "leak 0x10100 32 1 held ?", second.format("head"))),
        one("empty block", "its start leads to it", core(word(0x10008, 0x10200)), "+ 0x10200 0\n", all_marked(1, 0)),
        one("lost empty block", "a block of no byte leaks too", core(), "+ 0x10200 0\n",
            report((1, 0), (0, 0), (1, 0), 1, "caller 1 0 1 ?", "leak 0x10200 0 1 head ?")),
        one("word that sticks out", "the word at 0x10108 is half outside the first block, and so neither root nor its word",
            core(words((0x10008, 0x10100), (0x10108, 0x10200))), "+ 0x10100 0xc\n+ 0x10200 0x10\n",
            report((2, 28), (1, 12), (1, 16), 1, "caller 1 16 1 ?", second.format("head"))),
    ]


def of_odd_logs():
    """Examples whose log is odd, has blocks at the top of memory, or has many blocks or callers."""
    return [
        one("odd log", "the second allocation ends the first; two give-backs have no block; the last line is no line",
            core(), "+ 0x10100 0x20\n+ 0x10110 0x20\n- 0x10300\n- 0x10118\n- 0x10110",
            report((1, 32), (0, 0), (1, 32), 1, "caller 1 32 1 ?", "leak 0x10110 32 2 head ?", signs=(2, 1, 1)),
            warnings=torn() + unknown(2) + displaced(1)),
        one("freed memory", "memory of a block that was given back is a root as any other",
            core(word(0x10100, 0x10200)), TWO_BLOCKS + "- 0x10100\n", all_marked(1, 16)),
        one("top of memory", "15 bytes end at the last address", core(), TOP,
            report((1, 15), (0, 0), (1, 15), 1, "caller 1 15 1 ?", "leak 0xfffffffffffffff0 15 1 head ?")),
        one("held top of memory", "the greatest word is one past its end", core(word(0x10008, (1 << 64) - 1)), TOP,
            all_marked(1, 15)),
        one("four callers", "most bytes first, equal bytes by text, blocks by address", core(), FOUR_CALLERS,
            report((4, 112), (0, 0), (4, 112), 4, "caller 1 40 1 b:[0x2]", "caller 2 40 2 c:[0x3]",
                   "caller 1 32 1 a:[0x1]", "leak 0x10100 32 1 head a:[0x1]", "leak 0x10200 16 2 head c:[0x3]",
                   "leak 0x10300 24 3 head c:[0x3]", "leak 0x10400 40 4 head b:[0x2]")),
        one("chain of a hundred", "each holds the next, and a root word the first", *chain(), all_marked(100, 1600)),
        one("star of a hundred and one", "one leads to fifty, and each of these to one more", *star(), all_marked(101, 1600)),
    ]


def of_callers():
    """Texts of callers, as the log has them."""
    odd = "./a b]c:(main+0x1c)[0x113c]"
    return [
        one("a caller with spaces and brackets", "it ends at the last bracket", core(), f"@ {odd} + 0x10100 0x20\n",
            report((1, 32), (0, 0), (1, 32), 1, f"caller 1 32 1 {odd}", f"leak 0x10100 32 1 head {odd}")),
        one("a caller without a bracket", "it ends before the sign", core(), "@ ./a.out + 0x10100 0x20\n",
            report((1, 32), (0, 0), (1, 32), 1, "caller 1 32 1 ./a.out", "leak 0x10100 32 1 head ./a.out")),
        one("given back by a caller", "the line of a give-back has a caller too", core(),
            ONE_BLOCK + "@ [0x401136] - 0x10100\n", NOTHING, warnings=no_block()),
        one("moved by realloc", "the block of the third line is live, with that line", core(),
            "+ 0x10100 0x20\n< 0x10100\n> 0x10200 0x30\n! 0x10300 0x8\n- (nil)\n",
            report((1, 48), (0, 0), (1, 48), 1, "caller 1 48 1 ?", "leak 0x10200 48 3 head ?")),
    ]


def of_vectors():
    """A word in the vector entry, beside its registers and in them: st0 is at 584, xmm0 at 712, and xmm15 ends at 968."""
    rows = [("low half of st0", 584, held()), ("high half of st7", 704, held()), ("low half of xmm0", 712, held()),
            ("high half of xmm0", 720, held()), ("low half of xmm15", 952, held()), ("high half of xmm15", 960, held()),
            ("before st0", 576, lost()), ("after xmm15", 968, lost()), ("first word of the entry", 552, lost())]
    return [one(f"vector registers: {name}", "only st0 to st7 and xmm0 to xmm15 are roots",
                core(vectors(), at(place, little(0x10100))), ONE_BLOCK, answer) for name, place, answer in rows]


def of_states():
    """A word in the state entry, of several sizes: its header ends at 576, and a word counts if it is complete."""
    rows = [("first upper half of ymm0", state(2696), 576, held()), ("last upper half of ymm15", state(2696), 824, held()),
            ("a word of AVX-512", state(2696), 1152, held()), ("the last word", state(2696), 2688, held()),
            ("last word of the header", state(2696), 568, lost()), ("what it repeats of xmm0", state(2696), 160, lost()),
            ("one word", state(584), 576, held()), ("one word and a part", state(590), 576, held()),
            ("a part of a word", state(590), 584, lost()), ("no whole word", state(580), 576, lost()),
            ("no byte", state(0), 576, lost()), ("another name", state(2696, name=b"CORE"), 576, lost()),
            ("another type", state(2696, kind=0x203), 576, lost())]
    return [one(f"state entry: {name}", "words from 576 on are roots", core(part, at(552 + offset, little(0x10100))),
                ONE_BLOCK, answer) for name, part, offset, answer in rows]


def of_headers():
    """Cores that are accepted though a header is odd."""
    plain = core(section_count(600, 2))
    ignored = core(section_count(600, 1), at(56, little(2, 2)))
    behind = core_of_three(header(1, 6, 1_000_000, 0x11000, 0, 0x1000))
    empty = core_of_three(header(1, 6, 4096, 0x10800, 0, 0))
    return [
        one("two headers that a section counts", "0xffff says that section header 0 has the number, 2", plain, ONE_BLOCK,
            lost()),
        one("a section header that is not looked at", "the file header has the number", ignored, ONE_BLOCK, lost()),
        one("a segment that is not dumped", "its offset past the end does not matter; its bytes are counted", behind,
            ONE_BLOCK, lost(undumped=4096)),
        one("a segment of no byte", "it overlaps nothing", empty, ONE_BLOCK, lost()),
        one("a segment near the top", "its end is an address, so it is accepted; the word holds the block",
            core(word(0x10008, 0x10100), at(136, little(0xFFFFFFFFFFFFE000))), ONE_BLOCK, held()),
        one("seventy thousand headers", "all but the sample's two are zeros, which are skipped", many_headers(), ONE_BLOCK,
            held()),
        one("the last of seventy thousand segments", "its one word holds the block", many_segments(0x10100), ONE_BLOCK, held()),
        one("seventy thousand segments of zeros", "no word leads to the block", many_segments(0), ONE_BLOCK, lost()),
    ]


def many_headers():
    """The sample with a root word and 70,000 program headers after it."""
    sample = core(word(0x10008, 0x10100), section_count(600, 70_000), at(32, little(8192)))
    return sample + core()[64:176] + bytes(56 * 69_998)


def many_segments(value):
    """The sample with 70,000 segments more of one word each, all at file offset 4096, where the word is 0, except the last, at 1000."""
    sample = core(section_count(600, 70_002), at(32, little(8192)), at(1000, little(value)))
    places = [4096] * 69_999 + [1000]
    return sample + core()[64:176] + b"".join(header(1, 6, place, 0x1000000 + 4096 * i, 8, 8) for i, place in enumerate(places))


def of_options():
    """What the options do to a search. --workers, --piece and --stack change no report: `by_plans` runs each case by more."""
    block = core(words((0x100F8, 0x31), (0x10008, 0x10120), (0x10138, 0xFFF8), (0x10130, 0x10200)))
    log = "+ 0x10100 0x20\n+ 0x10130 0x10\n+ 0x10200 0x10\n- 0x10130\n"
    first, second = "leak 0x10100 32 1 head ?", "leak 0x10200 16 3 head ?"
    lost_first = report((2, 48), (1, 16), (1, 32), 1, "caller 1 32 1 ?", first)
    lost_second = report((2, 48), (1, 32), (1, 16), 1, "caller 1 16 1 ?", second, freed=2)
    lost_both = report((2, 48), (0, 0), (2, 48), 2, "caller 2 48 2 ?", first, second, freed=2)
    why = "a link leads to the first block, and a word of freed memory to the second"
    rows = [("neither", "", all_marked(2, 48)), ("links", "--skip-links", lost_first),
            ("freed memory", "--skip-freed", lost_second),
            ("both", "--skip-freed --skip-links", lost_both)]
    return [one(f"left out: {name}", why, block, log, answer, f"--other-heap {options}") for name, options, answer in rows]


def of_displacements():
    """With --displace a word keeps a block at its start and at the listed offsets alone."""
    rows = [(0x10108, "8", held()), (0x10100, "8", held()), (0x10110, "8", lost()), (0x10120, "8", lost()),
            (0x10110, "8,16", held()), (0x10120, "32", held()), (0x10108, "0", lost()), (0x10100, "0", held()),
            (0x10108, "00000000000000000008", held()), (0x10108, "8,8", held()),
            (0x10120, "65535", lost()), (0x10108, "1,2,3,4,5,6,7,9,10,11,12,13,14,15,65535,8", held())]
    given = [one(f"displaced: {place:#x} by {listed}", "its offset is in the list, or not", core(word(0x10008, place)),
                 ONE_BLOCK, answer, f"--other-heap --displace {listed}") for place, listed, answer in rows]
    both = report((2, 48), (0, 0), (2, 48), 2, "caller 2 48 2 ?", "leak 0x10100 32 1 head ?", "leak 0x10200 16 2 head ?")
    heads = one("heads by displacements", "by 8 alone the word one past the end leads to no block",
                core(word(0x10200, 0x10120)),
                TWO_BLOCKS, both, "--other-heap --displace 8")
    return [*given, heads]


def cases():
    """All searches of one core, each by several plans."""
    tables = (of_the_one_block, of_other_logs, of_odd_logs, of_callers, of_vectors, of_states, of_headers, of_options, of_displacements)
    return by_plans(case for table in tables for case in table())
