"""Who holds the memory: the worked examples of docs/EXAMPLES.md, each by all plans; and what is refused.

They are run with --other-heap, since the sample has no heap of glibc's: so there is no warning of misfits.
"""

from case import by_plans, case, refused
from cores import ONE_BLOCK, TWO_BLOCKS, at, core, field, rbx, word, words
from texts import displaced, misfits, no_block, torn, unknown, unopened

LINE = "holders core.k trace.log"
CHAIN = "@ a:[0x1] + 0x10100 0x20\n@ b:[0x2] + 0x10200 0x10\n"
DIAMOND = CHAIN + "@ c:[0x3] + 0x10300 0x10\n@ d:[0x4] + 0x10400 0x40\n"
LEADS = ((0x10008, 0x10100), (0x10100, 0x10200), (0x10108, 0x10300), (0x10200, 0x10400), (0x10300, 0x10400))
LIST = "".join(f"@ n:[0x1] + {start:#x} 0x18\n" for start in (0x10100, 0x10200, 0x10300)) + "".join(
    f"@ p:[0x2] + {start:#x} 0x40\n" for start in (0x10400, 0x10500, 0x10600))
LINKS = ((0x10008, 0x10100), (0x10010, 0x10300), (0x10100, 0x10200), (0x10200, 0x10300), (0x10308, 0x10200), (0x10208, 0x10100),
         (0x10110, 0x10400), (0x10210, 0x10500), (0x10310, 0x10600))
TURNS = ("@ x:[0x1] + 0x10100 0x10\n@ y:[0x2] + 0x10200 0x10\n@ y:[0x2] + 0x10300 0x10\n@ x:[0x1] + 0x10400 0x10\n"
         "@ b:[0x3] + 0x10500 0x20\n")
IN_TURNS = ((0x10008, 0x10100), (0x10010, 0x10300), (0x10100, 0x10200), (0x10200, 0x10500), (0x10300, 0x10400),
            (0x10400, 0x10500))
SEVENTY = [0x10200 + 0x10 * place for place in range(70)]


def told(blocks, marked, leaked, *rows, signs=(0, 0, 0), freed=None):
    """The report. Pairs are blocks and bytes; each row is that of a holder, without its first word."""
    text = ["blocks {} bytes {}".format(*blocks), "undumped 0", "unknown {} displaced {} torn {}".format(*signs)]
    if freed is not None:
        text.append(f"freed {freed}")
    text += ["marked {} bytes {}".format(*marked), "leaked {} bytes {}".format(*leaked)]
    return "".join(line + "\n" for line in [*text, *(f"holder {row}" for row in rows)])


def holders(name, reason, image, log, text, options="--other-heap", warnings="", status=0):
    """A question who holds the memory. Nothing that leaked changes the status."""
    return case(f"holders: {name}", reason, f"{LINE} {options}", {"core.k": image, "trace.log": log}, text, warnings, status)


def all_reached(blocks, *rows, **others):
    """The report if each block is reached."""
    return told(blocks, blocks, (0, 0), *rows, **others)


def of_few_blocks():
    """Chains, a block at another's end, an empty one, and one that is not reached."""
    own = ("1 32 1 32 0 0x10100 a:[0x1]", "1 16 1 16 0 {} b:[0x2]")
    return [
        holders("no block", "there is no text", core(), "", told((0, 0), (0, 0), (0, 0)), warnings=no_block()),
        holders("one block", "it holds itself", core(word(0x10008, 0x10100)), ONE_BLOCK,
                all_reached((1, 32), "1 32 1 32 0 0x10100 ./a.out:[0x401136]")),
        holders("chain", "the first holds both, and the second is within it",
                core(words((0x10008, 0x10100), (0x10100, 0x10200))), CHAIN,
                all_reached((2, 48), "2 48 1 32 0 0x10100 a:[0x1]", "1 16 1 16 1 0x10200 b:[0x2]")),
        holders("chain with a root at its end", "a register leads to the second too, so nothing is within anything",
                core(words((0x10008, 0x10100), (0x10100, 0x10200)), rbx(0x10200)), CHAIN,
                all_reached((2, 48), own[0], own[1].format("0x10200"))),
        holders("neighbors", "a word one past the end of the first, and at the start of the second, leads to both",
                core(word(0x10008, 0x10120)), "@ a:[0x1] + 0x10100 0x20\n@ b:[0x2] + 0x10120 0x10\n",
                all_reached((2, 48), own[0], own[1].format("0x10120"))),
        holders("empty block", "a text without a byte has a row",
                core(words((0x10008, 0x10100), (0x10100, 0x10200))), "@ a:[0x1] + 0x10100 0x8\n@ e:[0x2] + 0x10200 0\n",
                all_reached((2, 8), "2 8 1 8 0 0x10100 a:[0x1]", "1 0 1 0 1 0x10200 e:[0x2]")),
        holders("half reached", "of the two blocks of a one leaked, which holds nothing and is not its own",
                core(words((0x10008, 0x10100), (0x10100, 0x10300), (0x10200, 0x10300))),
                "@ a:[0x1] + 0x10100 0x20\n@ a:[0x1] + 0x10200 0x10\n@ b:[0x2] + 0x10300 0x8\n",
                told((3, 56), (2, 40), (1, 16), "2 40 1 32 0 0x10100 a:[0x1]", "1 8 1 8 1 0x10300 b:[0x2]")),
        holders("ring that is lost", "no block is reached, so none holds one",
                core(words((0x10100, 0x10200), (0x10200, 0x10100))), TWO_BLOCKS, told((2, 48), (0, 0), (2, 48))),
        holders("no caller", "blocks without a caller have one text", core(words((0x10008, 0x10100), (0x10100, 0x10200))),
                TWO_BLOCKS, all_reached((2, 48), "2 48 2 48 0 0x10100 ?")),
    ]


def of_shapes():
    """A diamond, a list with a head and a tail, texts that hold one another's blocks in turns, and more texts than 64."""
    return [
        holders("diamond", "two ways lead to the last block, so neither of them holds it", core(words(*LEADS)), DIAMOND,
                all_reached((4, 128), "4 128 1 32 0 0x10100 a:[0x1]", "1 64 1 64 1 0x10400 d:[0x4]",
                            "1 16 1 16 1 0x10200 b:[0x2]", "1 16 1 16 1 0x10300 c:[0x3]")),
        holders("list with head and tail", "its nodes are one text, so their double links do not matter", core(words(*LINKS)), LIST,
                all_reached((6, 264), "6 264 3 72 0 0x10100 n:[0x1]", "3 192 3 192 1 0x10400 p:[0x2]")),
        holders("in turns", "each of two texts holds one block of the other, and neither is within the other", core(words(*IN_TURNS)),
                TURNS, all_reached((5, 96), "4 80 2 32 0 0x10100 x:[0x1]", "4 80 2 32 0 0x10200 y:[0x2]",
                                   "1 32 1 32 2 0x10500 b:[0x3]")),
        holders("chain of seventy texts", "each holds all that come after it",
                core(words((0x10008, SEVENTY[0]), *zip(SEVENTY, SEVENTY[1:]))),
                "".join(f"@ f{place}:[0x1] + {start:#x} 0x8\n" for place, start in enumerate(SEVENTY)),
                all_reached((70, 560), *(f"{70 - place} {560 - 8 * place} 1 8 {place} {start:#x} f{place}:[0x1]"
                                         for place, start in enumerate(SEVENTY)))),
    ]


def of_options():
    """The options of a search, and warnings."""
    held, lost = "1 32 1 32 0 0x10100 a:[0x1]", told((2, 48), (1, 32), (1, 16), "1 32 1 32 0 0x10100 a:[0x1]")
    chained = core(words((0x10008, 0x10100), (0x10108, 0x10208)))
    odd = "@ a:[0x1] + 0x10100 0x20\n- 0x10300\n@ a:[0x1] + 0x10100 0x20\nx"
    freed = "@ a:[0x1] + 0x10100 0x20\n+ 0x10500 0x20\n- 0x10500\n"
    strict = core(word(0x10008, 0x10100))
    return [
        holders("displaced", "8 bytes in does not count but for 0 and 16", chained, CHAIN, lost, "--displace 16 --other-heap"),
        holders("ends left out", "one past the end leads to nothing", core(word(0x10008, 0x10120)),
                "@ a:[0x1] + 0x10100 0x20\n", told((1, 32), (0, 0), (1, 32)), "--skip-ends --other-heap"),
        holders("freed memory left out", "the word stands in freed memory", core(word(0x10500, 0x10100)), freed,
                told((1, 32), (0, 0), (1, 32), freed=4), "--skip-freed --other-heap"),
        holders("freed memory counts", "without the option it is a root word", core(word(0x10500, 0x10100)), freed,
                all_reached((1, 32), held)),
        holders("warnings", "as of a search", strict, odd, all_reached((1, 32), held, signs=(1, 1, 1)),
                warnings=torn() + unknown(1) + displaced(1)),
        holders("strict", "a warning has a status of its own", strict, "@ a:[0x1] + 0x10100 0x20\n",
                all_reached((1, 32), held), "--strict", misfits(1, 1), 3),
        holders("strict without a warning", "status 0", strict, "@ a:[0x1] + 0x10100 0x20\n",
                all_reached((1, 32), held), "--strict --other-heap"),
    ]


def of_refusals():
    """Files that are refused as by a search of one core."""
    good = {"core.k": core(), "trace.log": ONE_BLOCK}
    rows = [
        ("a bad core", {"core.k": core(at(0, b"\0"))}, "input 1: core: not an ELF file"),
        ("no thread", {"core.k": core(field(64, 0, 4))}, "input 1: notes: no thread status"),
        ("a bad log", {"trace.log": ONE_BLOCK + "+ 0x10200\n"}, "input 1: log: line 2 is not an mtrace line"),
    ]
    found = [refused(f"holders: {name}", "as by a search", LINE, {**good, **files}, text) for name, files, text in rows]
    missing = [refused(f"holders: no {name}", "all files are opened first", LINE, files, unopened(path)) for name, files, path in
               (("log", {"core.k": core()}, "trace.log"), ("core", {"trace.log": ONE_BLOCK}, "core.k"))]
    return [*found, *missing]


def cases():
    """All of them, the worked ones by all plans."""
    return by_plans(of_few_blocks() + of_shapes()) + of_options() + of_refusals()
