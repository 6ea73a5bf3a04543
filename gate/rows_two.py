"""Searches of two cores of one process, each with its log: the pairs of docs/EXAMPLES.md, and some more."""

import rows_one
from case import by_plans, two
from cores import ONE_BLOCK, TWO_BLOCKS, at, chain, core, dumped, little, rbx, star, state, vectors, word, words
from texts import all_marked, displaced, held, lost, no_block, report, torn, unknown

THREE_BLOCKS = "+ 0x10100 0x20\n+ 0x10120 0x10\n+ 0x10200 0x10\n"
HELD = word(0x10008, 0x10100)


def of_kept_blocks():
    """Blocks that were marked in the first core and are still live."""
    linked = words((0x10008, 0x10200), (0x10200, 0x10120))
    less = THREE_BLOCKS + "- 0x10120\n"
    return [
        two("kept", "all that is live was marked in the first core, and no page differs", (core(linked), THREE_BLOCKS),
            (core(linked), less), all_marked(2, 48, new=(0, 0), reread=0)),
        two("kept, and a word changed", "the page differs, so the 4 and 2 words of the kept blocks are read again",
            (core(linked), THREE_BLOCKS), (core(linked, word(0x10FF8, 1)), less), all_marked(2, 48, new=(0, 0), reread=6)),
        two("held in the earlier core alone", "it is kept, and its 4 words are on the page that differs",
            (core(HELD), ONE_BLOCK), (core(), ONE_BLOCK), held(new=(0, 0), reread=4)),
        two("held in the later core alone", "a root leads to it, and nothing is kept", (core(), ONE_BLOCK),
            (core(HELD), ONE_BLOCK), held(new=(0, 0), reread=0)),
        two("held in neither", "nothing led to it in either core", (core(), ONE_BLOCK), (core(), ONE_BLOCK),
            lost(new=(0, 0), reread=0)),
        two("kept block that leads on in the later core", "its new word leads to the second block", (core(HELD), TWO_BLOCKS),
            (core(HELD, word(0x10100, 0x10200)), TWO_BLOCKS), all_marked(2, 48, new=(0, 0), reread=4)),
        two("kept block whose holder was given back", "it was marked by a chain of the first core",
            (core(HELD, word(0x10100, 0x10200)), TWO_BLOCKS), (core(), TWO_BLOCKS + "- 0x10100\n"),
            all_marked(1, 16, new=(0, 0), reread=2)),
        two("kept block with another number", "blocks are carried by their lines, not by their places in the list",
            (core(word(0x10008, 0x10200)), "+ 0x10200 0x10\n+ 0x10300 0x18\n"),
            (core(), "+ 0x10200 0x10\n+ 0x10300 0x18\n+ 0x10100 0x20\n"),
            report((3, 72), (2, 48), (1, 24), 1, "caller 1 24 1 ?", "leak 0x10300 24 2 head ?", new=(1, 32), reread=2)),
        two("earlier core half dumped", "the words from 0x10800 on are not in the first core, so the page differs",
            (core(dumped(0x800), HELD), ONE_BLOCK), (core(HELD), ONE_BLOCK), held(new=(0, 0), reread=4)),
        two("later core half dumped", "no readable word of the second core differs", (core(HELD), ONE_BLOCK),
            (core(dumped(0x800), HELD), ONE_BLOCK), held(new=(0, 0), reread=0, undumped=2048)),
    ]


def of_new_blocks():
    """Blocks that the second log allocated after the complete lines of the first."""
    link = word(0x10100, 0x10200)
    kept_and_new = all_marked(2, 48, new=(1, 16), reread=0)
    one_new = all_marked(1, 32, new=(1, 32), reread=0)
    callers = "@ a:[0x1] + 0x10100 0x20\n@ b:[0x2] + 0x10200 0x10\n"
    odd = "+ 0x10100 0x20\n+ 0x10110 0x20\n- 0x10300\n- 0x10118\n- 0x10110"
    return [
        two("moved to where it was", "a line of the second log allocated it, so it is new, and holds the other",
            (core(link), TWO_BLOCKS), (core(link, rbx(0x10100)), TWO_BLOCKS + "< 0x10100\n> 0x10100 0x20\n"),
            all_marked(2, 48, new=(1, 32), reread=0)),
        two("moved elsewhere", "the block at 0x10300 is new", (core(HELD), ONE_BLOCK),
            (core(), ONE_BLOCK + "< 0x10100\n> 0x10300 0x20\n"), one_new),
        two("torn first log", "its last line is not complete, so the second block is new",
            (core(HELD), "+ 0x10100 0x20\n+ 0x102"), (core(HELD), TWO_BLOCKS), kept_and_new, warnings=torn()),
        two("first log torn in another line", "what is torn need not continue as the second log does",
            (core(HELD), "+ 0x10100 0x20\n- 0x10100"), (core(HELD), TWO_BLOCKS), kept_and_new, warnings=torn()),
        two("first log without a complete line", "all of the second log is new", (core(HELD), "no line"),
            (core(), ONE_BLOCK), one_new, warnings=no_block() + torn()),
        two("empty first log", "all of the second log is new", (core(), ""), (core(), ONE_BLOCK), one_new, warnings=no_block()),
        two("lost, held and new block", "only the first is neither new nor led to", (core(word(0x10008, 0x10200)), callers),
            (core(word(0x10008, 0x10200)), callers + "@ c:[0x3] + 0x10300 0x18\n"),
            report((3, 72), (2, 40), (1, 32), 1, "caller 1 32 1 a:[0x1]", "leak 0x10100 32 1 head a:[0x1]", new=(1, 24),
                   reread=0)),
        two("odd later log", "the report and its signs are of the second core and log", (core(HELD), "+ 0x10100 0x20\n"),
            (core(dumped(0x800)), odd), all_marked(1, 32, undumped=2048, signs=(2, 1, 1), new=(1, 32), reread=0),
            warnings=torn(2) + unknown(2, 2) + displaced(1, 2)),
    ]


def of_exchanged_cores():
    """A pair, and the same with the cores exchanged."""
    linked, later = core(HELD, word(0x10100, 0x10200)), TWO_BLOCKS + "- 0x10100\n"
    return [two("the cores exchanged", "a word of freed memory of the second core leads to the block; nothing was kept",
                (core(), TWO_BLOCKS), (linked, later), all_marked(1, 16, new=(0, 0), reread=0))]


def of_many_blocks():
    """Chains and stars: in the second core alone, in both, and new."""
    (chained, chain_log), (starred, star_log) = chain(), star()
    zero = core()
    unchanged = {"new": (0, 0), "reread": 0}
    return [
        two("chain of the later core", "nothing is kept, and a root leads to all", (zero, chain_log), (chained, chain_log),
            all_marked(100, 1600, **unchanged)),
        two("chain of both cores", "all is kept, and no page differs", (chained, chain_log), (chained, chain_log),
            all_marked(100, 1600, **unchanged)),
        two("chain that is new", "all is new", (chained, ""), (chained, chain_log),
            all_marked(100, 1600, new=(100, 1600), reread=0), warnings=no_block()),
        two("star of the later core", "nothing is kept, and a root leads to all", (zero, star_log), (starred, star_log),
            all_marked(101, 1600, **unchanged)),
        two("star of both cores", "all is kept, and no page differs", (starred, star_log), (starred, star_log),
            all_marked(101, 1600, **unchanged)),
    ]


def of_the_same_twice():
    """Each example of one core, and the same core and log again: all that is marked was marked before, and no page differs."""
    found = []
    for given in [*rows_one.of_the_one_block(), *rows_one.of_other_logs(), *rows_one.of_odd_logs()]:
        both = (given.files["core.k"], given.files["trace.log"])
        answer = given.stdout.decode().replace("marked ", "new 0 bytes 0\nreread 0\nmarked ", 1)
        warnings = given.stderr.decode()
        found.append(two(f"twice: {given.name}", given.reason, both, both, answer,
                         warnings=warnings + warnings.replace("input 1", "input 2")))
    return found


def of_heads():
    """Heads are those of the second core."""
    linked = core(word(0x10100, 0x10200))
    first = "leak 0x10100 32 1 head ?"
    lines = {"held": ("caller 2 48 1 ?", first, "leak 0x10200 16 2 held ?"),
             "head": ("caller 2 48 2 ?", first, "leak 0x10200 16 2 head ?")}
    rows = [("now held", core(), linked, 1, "held"), ("held before", linked, core(), 2, "head")]
    return [two(f"heads of two cores: {name}", "only words of the second core hold", (earlier, TWO_BLOCKS), (later, TWO_BLOCKS),
                report((2, 48), (0, 0), (2, 48), heads, *lines[kind], new=(0, 0), reread=0))
            for name, earlier, later, heads, kind in rows]


def of_options():
    """What the options do to a search of two cores."""
    rows = [("earlier, in the list", 0x10108, 0, held(new=(0, 0), reread=4)),
            ("earlier, not in it", 0x10110, 0, lost(new=(0, 0), reread=0)),
            ("later, in the list", 0, 0x10108, held(new=(0, 0), reread=0)),
            ("later, not in it", 0, 0x10110, lost(new=(0, 0), reread=0))]
    displacements = [two(f"displaced by eight: {name}", "a word keeps the block at its start and 8 bytes on",
                         (core(word(0x10008, earlier)), ONE_BLOCK), (core(word(0x10008, later)), ONE_BLOCK), answer,
                         "--other-heap --displace 8") for name, earlier, later, answer in rows]
    beside, inside = core(vectors(), at(552, little(0x10100))), core(vectors(), at(720, little(0x10100)))
    registers = [two(f"a vector register of the {name} core", "no word of memory differs", (earlier, ONE_BLOCK),
                     (later, ONE_BLOCK),
                     held(new=(0, 0), reread=0)) for name, earlier,
                     later in (("later", beside, inside), ("earlier", inside, beside))]
    header, upper = core(state(2696), at(1120, little(0x10100))), core(state(2696), at(1256, little(0x10100)))
    registers += [two(f"the upper half of ymm8 of the {name} core", "no word of memory differs", (earlier, ONE_BLOCK),
                      (later, ONE_BLOCK), held(new=(0, 0), reread=0))
                  for name, earlier, later in (("later", header, upper), ("earlier", upper, header))]
    return [*displacements, *registers]


def cases():
    """All searches of two cores, each by several plans."""
    tables = (of_kept_blocks, of_new_blocks, of_exchanged_cores, of_many_blocks, of_the_same_twice, of_heads, of_options)
    return by_plans(case for table in tables for case in table())
