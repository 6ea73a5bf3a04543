"""Questions what holds a block: the examples of docs/EXAMPLES.md, their roots by name, and what is refused."""

from case import refused, why
from cores import (ONE_BLOCK, TWO_BLOCKS, at, chain, core, field, first, in_thread, little, rbx, second_thread, state, threads,
                   vectors, word, words)
from texts import displaced, misfits, torn, unknown

ONE = "0x10100 32 1 ./a.out:[0x401136]"
FOUR = "+ 0x10100 0x20\n+ 0x10200 0x20\n+ 0x10300 0x20\n+ 0x10400 0x20\n"
STATUS_NAMES = ("r15 r14 r13 r12 rbp rbx r11 r10 r9 r8 rax rcx rdx rsi rdi orig_rax rip cs eflags rsp ss fs_base gs_base "
                "ds es fs gs").split()
LINE = "why core.k trace.log "


def told(asked, *lines):
    """An answer: the block that is asked for, and the lines from the root on."""
    return "".join(line + "\n" for line in (f"asked {asked}", *lines))


def directly(block, place, value):
    """The answer if a root word leads to the block."""
    return told(block, f"root {place} holds {value:#x}", f"block {block}")


def of_addresses():
    """Which block an address asks for, and how it may be written."""
    at_end = core(word(0x10008, 0x10120))
    inside = core(word(0x10008, 0x10110))
    touching = "+ 0x10100 0x20\n+ 0x10120 0\n+ 0x10121 0x1\n"
    rows = [
        ("held by its end", at_end, "+ 0x10100 0x20\n", "0x10100", directly("0x10100 32 1 ?", "0x10008", 0x10120)),
        ("an address inside", inside, ONE_BLOCK, "0x10108", directly(ONE, "0x10008", 0x10110)),
        ("its last byte", inside, ONE_BLOCK, "0x1011f", directly(ONE, "0x10008", 0x10110)),
        ("upper case", inside, ONE_BLOCK, "0x1011F", directly(ONE, "0x10008", 0x10110)),
        ("16 digits", inside, ONE_BLOCK, "0x0000000000010100", directly(ONE, "0x10008", 0x10110)),
        ("a block of no byte", core(), touching, "0x10120", told("0x10120 0 2 ?", "leaked")),
        ("the block after it", core(), touching, "0x10121", told("0x10121 1 3 ?", "leaked")),
        ("the last address", core(), "+ 0xffffffffffffffff 0\n", "0xffffffffffffffff",
         told("0xffffffffffffffff 0 1 ?", "leaked")),
    ]
    return [why(f"why: {name}", "the block that the address is in, or begins", *row) for name, *row in rows]


def of_chains():
    """Chains of words: no chain from a root is shorter."""
    both = told("0x10200 16 2 ?", "root rbx of thread 1 holds 0x10100", "block 0x10100 32 1 ?", "word 0x10118 holds 0x10200",
                "block 0x10200 16 2 ?")
    roots = words((0x10008, 0x10100), (0x10108, 0x10210), (0x10FF8, 0x10200))
    ways = words((0x10008, 0x10100), (0x10010, 0x10408), (0x10100, 0x10200), (0x10200, 0x10300), (0x10410, 0x10300))
    short = told("0x10300 32 3 ?", "root 0x10010 holds 0x10408", "block 0x10400 32 4 ?", "word 0x10410 holds 0x10300",
                 "block 0x10300 32 3 ?")
    ring = core(words((0x10100, 0x10200), (0x10200, 0x10100)))
    image, log = chain()
    steps = [f"block {0x10200 + 0x20 * i:#x} 16 {i + 1} ?" for i in range(100)]
    holds = [f"word {0x10200 + 0x20 * i:#x} holds {0x10220 + 0x20 * i:#x}" for i in range(99)]
    links = [line for pair in zip(steps, holds) for line in pair] + steps[-1:]
    return [
        why("why: register and block", "rbx leads to the one, and its fourth word to the other",
            core(rbx(0x10100), word(0x10118, 0x10200)),
            TWO_BLOCKS, "0x10200", both),
        why("why: two roots", "the one leads to it directly", core(roots), FOUR, "0x10200",
            directly("0x10200 32 2 ?", "0x10ff8", 0x10200)),
        why("why: two ways", "by one other block, not by two", core(ways), FOUR, "0x10300", short),
        why("why: ring of two", "no root leads to it", ring, TWO_BLOCKS, "0x10100", told("0x10100 32 1 ?", "leaked")),
        why("why: lost", "a root leads to another address", core(word(0x10008, 0x10200)), ONE_BLOCK, "0x10100",
            told(ONE, "leaked")),
        why("why: chain of a hundred", "each holds the next: 200 lines", image, log, "0x10e60",
            told("0x10e60 16 100 ?", "root 0x10008 holds 0x10200", *links)),
        why("why: read-only segment", "its words are no roots, but those of blocks are words",
            core(field(124, 4, 4), rbx(0x10100), word(0x10118, 0x10200)),
            TWO_BLOCKS, "0x10200", both),
    ]


def of_registers():
    """Each register by its name, as gdb has it, and its thread."""
    found = []
    for number, name in enumerate(STATUS_NAMES):
        image = core(at(308 + 8 * number, little(0x10100)))
        found.append(why(f"why: register {name}", "its place in a thread status", image, ONE_BLOCK, "0x10100",
                         directly(ONE, f"{name} of thread 1", 0x10100)))
    halves = [f"{kind}{number} {half}" for kind, count in (("st", 8), ("xmm", 16)) for number in range(count)
              for half in ("low", "high")]
    for number, name in enumerate(halves):
        image = core(vectors(), at(584 + 8 * number, little(0x10100)))
        found.append(why(f"why: register {name}", "its place in a vector entry", image, ONE_BLOCK, "0x10100",
                         directly(ONE, f"{name} of thread 1", 0x10100)))
    for offset in (576, 704, 824, 1152, 2688):
        image = core(state(2696), at(552 + offset, little(0x10100)))
        found.append(why(f"why: word {offset} of a state entry", "it has no other name", image, ONE_BLOCK, "0x10100",
                         directly(ONE, f"state {offset} of thread 1", 0x10100)))
    found += of_threads()
    second = why("why: register of a second thread", "the second status is that of thread 2", core(second_thread(0x10100)),
                 ONE_BLOCK, "0x10100",
                 directly(ONE, "r15 of thread 2", 0x10100))
    return [*found, second]


def of_threads():
    """Words of three threads that have all kinds of entries: they are of the thread whose status came last."""
    rows = [("status", 112, "r15"), ("status", 320, "gs"), ("vector", 32, "st0 low"), ("vector", 408, "xmm15 high"),
            ("state", 576, "state 576"), ("state", 832, "state 832")]
    return [why(f"why: {name} of thread {number} of three", "entries stand in the order of the threads",
                core(threads(3, 840), at(in_thread(number, 840, kind, offset), little(0x10100))), ONE_BLOCK, "0x10100",
                directly(ONE, f"{name} of thread {number}", 0x10100))
            for number in (1, 2, 3) for kind, offset, name in rows]


def of_options():
    """The options of `why` leave out the same words as those of a search."""
    inside, stale = core(word(0x10008, 0x10110)), core(word(0x10108, 0x10200))
    link = core(words((0x100F8, 0x31), (0x10008, 0x10120), (0x10138, 0xFFF8)))
    later = core(words((0x100F8, 0x31), (0x10008, 0x10120), (0x10138, 0xFFF8), (0x10FF8, 0x10120)))
    freed, block = TWO_BLOCKS + "- 0x10100\n", "+ 0x10100 0x20\n"
    held_by_word = core(words((0x10008, 0x10100), (0x10100, 0x10200)))
    by_block = told("0x10200 16 2 ?", "root 0x10008 holds 0x10100", f"block {ONE}", "word 0x10100 holds 0x10200",
                    "block 0x10200 16 2 ?")
    rows = [
        ("displaced, in the list", inside, ONE_BLOCK, "0x10100", directly(ONE, "0x10008", 0x10110), "--displace 8,16"),
        ("displaced, not in it", inside, ONE_BLOCK, "0x10100", told(ONE, "leaked"), "--displace 0"),
        ("freed memory", stale, freed, "0x10200", directly("0x10200 16 2 ?", "0x10108", 0x10200), ""),
        ("without freed memory", stale, freed, "0x10200", told("0x10200 16 2 ?", "leaked"), "--skip-freed"),
        ("a link", link, block, "0x10100", directly("0x10100 32 1 ?", "0x10008", 0x10120), ""),
        ("without links", link, block, "0x10100", told("0x10100 32 1 ?", "leaked"), "--skip-links"),
        ("a later word that is no link", later, block, "0x10100", directly("0x10100 32 1 ?", "0x10ff8", 0x10120),
         "--skip-links"),
        ("without both", later, block, "0x10100", directly("0x10100 32 1 ?", "0x10ff8", 0x10120), "--skip-links --skip-freed"),
        ("by a live block, without freed memory", held_by_word, ONE_BLOCK + "+ 0x10200 0x10\n", "0x1020F", by_block,
         "--skip-freed"),
    ]
    return [why(f"why: {name}", "the words that count are those of the options", *row) for name, *row in rows]


def of_warnings():
    """Warnings of a core and a log that don't belong together, and what --strict and --other-heap make of them."""
    odd = "- 0x1\n+ 0x100f0 0x20\n" + ONE_BLOCK + "+"
    held, leaked = directly(ONE, "0x10008", 0x10100), told(ONE, "leaked")
    one, other = core(word(0x10008, 0x10100)), core()
    line = directly("0x10100 32 3 ./a.out:[0x401136]", "0x10008", 0x10100)
    signs = torn() + unknown(1) + displaced(1)
    rows = [
        ("held", one, ONE_BLOCK, held, "", misfits(1, 1), 0), ("leaked", other, ONE_BLOCK, leaked, "", misfits(1, 1), 1),
        ("held, strict", one, ONE_BLOCK, held, "--strict", misfits(1, 1), 3),
        ("leaked, strict", other, ONE_BLOCK, leaked, "--strict", misfits(1, 1), 3),
        ("held, strict, of another heap", one, ONE_BLOCK, held, "--strict", "", 0),
        ("leaked, strict, of another heap", other, ONE_BLOCK, leaked, "--strict", "", 1),
        ("each sign", one, odd, line, "", signs + misfits(1, 1), 0),
        ("each sign but of the heap", one, odd, line, "--other-heap", signs, 0),
        ("each sign but of the heap, strict", one, odd, line, "--strict --other-heap", signs, 3),
    ]
    return [why(f"why warns: {name}", "of the block and of the log, as a search does", image, log, "0x10100", text, options, warned,
                status)
            for name, image, log, text, options, warned, status in rows]


def of_refusals():
    """Addresses that no live block holds, and what comes before them."""
    files = {"core.k": core(), "trace.log": ONE_BLOCK}
    found = [refused(f"why: none at {address}", "no live block has a byte there", LINE + address, files,
                     f"no live block holds {shown}")
             for address, shown in (("0x10120", "0x10120"), ("0x100FF", "0x100ff"), ("0x0", "0x0"), ("0x0000", "0x0"),
                                    ("0xffffffffffffffff", "0xffffffffffffffff"))]
    gone = {"core.k": core(), "trace.log": ONE_BLOCK + "- 0x10100\n"}
    found.append(refused("why: of a block that was given back", "it is not live", LINE + "0x10100", gone,
                         "no live block holds 0x10100"))
    rows = [("the core", core(first(8191)), ONE_BLOCK, "input 1: core: header 1: contents are cut off"),
            ("the notes", core(field(64, 0, 4)), "+\n", "input 1: notes: no thread status"),
            ("the log", core(), "+\n", "input 1: log: line 1 is not an mtrace line")]
    return found + [refused(f"why: {name} first", "inputs are refused before the address", LINE + "0x0",
                            {"core.k": image, "trace.log": log}, text)
                    for name, image, log, text in rows]


def of_words():
    """Addresses that are none are refused before a file is opened: there is none here."""
    rows = ["10100", "0x", "0X10100", "0x00000000000010100", "0xg", "0x+1", "x", "-- -0x1", "0x10100."]
    found = [refused(f"why: address {word}", "0x and 1 to 16 hexadecimal digits", LINE + word, {},
                     "ADDRESS: not 0x and 1 to 16 hexadecimal digits") for word in rows]
    listed = refused("why: a list before an address", "the list is refused first", LINE + "x --displace x", {},
                     "--displace: item 0 is not a number")
    return [*found, listed]


def cases():
    """All questions."""
    return of_addresses() + of_chains() + of_registers() + of_options() + of_warnings() + of_refusals() + of_words()
