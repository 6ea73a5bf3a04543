"""What one caller or one block holds, who holds it, and since when: worked answers, and many more by the definition.

The answers of `by_definition` and of the random heaps are those of heaps.py, which takes a set of blocks out and searches again.
"""

import random

from case import PLANS, case, refused, with_plan
from cores import ONE_BLOCK, TWO_BLOCKS, core, rbx, word, words
from heaps import Heap, answer, holders_since
from rows_holders import CHAIN, DIAMOND, IN_TURNS, LEADS, LINKS, LIST, SEVENTY, TURNS
from texts import misfits, no_block, torn, unopened

LINE = "holders core.k trace.log"
SIDES = ("--in", "--of")
OTHER = "--other-heap"
# Heaps: the core, the log, and every which block is asked about.
SAMPLES = {
    "one block": (core(word(0x10008, 0x10100)), ONE_BLOCK, 1),
    "chain": (core(words((0x10008, 0x10100), (0x10100, 0x10200))), CHAIN, 1),
    "chain with a root at its end": (core(words((0x10008, 0x10100), (0x10100, 0x10200)), rbx(0x10200)), CHAIN, 1),
    "neighbors": (core(word(0x10008, 0x10120)), "@ a:[0x1] + 0x10100 0x20\n@ b:[0x2] + 0x10120 0x10\n", 1),
    "empty block": (core(words((0x10008, 0x10100), (0x10100, 0x10200))), "@ a:[0x1] + 0x10100 0x8\n@ e:[0x2] + 0x10200 0x0\n", 1),
    "half reached": (core(words((0x10008, 0x10100), (0x10100, 0x10300), (0x10200, 0x10300))),
                     "@ a:[0x1] + 0x10100 0x20\n@ a:[0x1] + 0x10200 0x10\n@ b:[0x2] + 0x10300 0x8\n", 1),
    "ring that is lost": (core(words((0x10100, 0x10200), (0x10200, 0x10100))), TWO_BLOCKS, 1),
    "no caller": (core(words((0x10008, 0x10100), (0x10100, 0x10200))), TWO_BLOCKS, 1),
    "diamond": (core(words(*LEADS)), DIAMOND, 1),
    "list with head and tail": (core(words(*LINKS)), LIST, 1),
    "in turns": (core(words(*IN_TURNS)), TURNS, 1),
    "chain of seventy texts": (core(words((0x10008, SEVENTY[0]), *zip(SEVENTY, SEVENTY[1:]))),
                               "".join(f"@ f{place}:[0x1] + {start:#x} 0x8\n" for place, start in enumerate(SEVENTY)), 23),
}
HEAPS = 100


def text_of(lines):
    """The lines as a text."""
    return "".join(f"{line}\n" for line in lines)


def asked(name, reason, image, log, options, lines, since=None, warnings="", status=0):
    """A question, with an earlier log if there is one."""
    files = {"core.k": image, "trace.log": log}
    if since is not None:
        files["earlier.log"], options = since, f"{options} --since earlier.log"
    return case(f"questions: {name}", reason, f"{LINE} {options}", files, text_of(lines), warnings, status)


def worked():
    """Answers that were made by hand."""
    image, ring = core(words(*LINKS)), core(words((0x10100, 0x10200), (0x10200, 0x10100)))
    node, payload = "asked 0x10200 24 2 n:[0x1]", "asked 0x10500 64 5 p:[0x2]"
    rows = [
        ("a node alone", "the others are reached from the other end, but its payload by it alone", image, LIST,
         "--in 0x10200 --block", [node, "held 2 bytes 88", "in 1 64 p:[0x2]", "in 1 24 n:[0x1]"]),
        ("all nodes", "without them no payload is reached", image, LIST, "--in 0x10200",
         [node, "held 6 bytes 264", "in 3 192 p:[0x2]", "in 3 72 n:[0x1]"]),
        ("who holds the payloads", "each node holds its own, and an address inside asks for the block", image, LIST, "--of 0x10510",
         [payload, "held 3 bytes 192", "by 3 192 n:[0x1]"]),
        ("who holds one payload", "its text is the nodes'", image, LIST, "--of 0x10510 --block",
         [payload, "held 1 bytes 64", "by 1 64 n:[0x1]"]),
        ("who holds the nodes", "no other text does", image, LIST, "--of 0x10100",
         ["asked 0x10100 24 1 n:[0x1]", "held 3 bytes 72"]),
        ("a ring that is lost", "nothing follows", ring, TWO_BLOCKS, "--in 0x10200", ["asked 0x10200 16 2 ?", "leaked"]),
        ("who holds a lost ring", "nothing follows", ring, TWO_BLOCKS, "--of 0x10100 --block",
         ["asked 0x10100 32 1 ?", "leaked"]),
    ]
    return [asked(name, reason, image, log, f"{options} {OTHER}", lines) for name, reason, image, log, options, lines in rows]


def worked_since():
    """Answers by hand if only later blocks count."""
    image, two_lines = core(words(*LINKS)), "".join(LIST.splitlines(True)[:5])
    log = "@ a:[0x1] + 0x10100 0x20\n@ b:[0x2] + 0x10200 0x10\n"
    linked = core(words((0x10008, 0x10100), (0x10100, 0x10200)))
    sums = ["blocks 2 bytes 48", "undumped 0", "unknown 0 displaced 0 torn 0"]
    return [
        asked("since a line", "the second block alone is counted, and its text is within the first's", linked, log, OTHER,
              [*sums, "new 1 bytes 16", "marked 2 bytes 48", "leaked 0 bytes 0", "holder 1 16 0 0 0 0x10100 a:[0x1]",
               "holder 1 16 1 16 1 0x10200 b:[0x2]"], "@ a:[0x1] + 0x10100 0x20\n"),
        asked("since the log itself", "nothing is counted, so there is no row", linked, log, OTHER,
              [*sums, "new 0 bytes 0", "marked 2 bytes 48", "leaked 0 bytes 0"], log),
        asked("since an empty log", "all is counted", linked, log, OTHER,
              [*sums, "new 2 bytes 48", "marked 2 bytes 48", "leaked 0 bytes 0", "holder 2 48 1 32 0 0x10100 a:[0x1]",
               "holder 1 16 1 16 1 0x10200 b:[0x2]"], ""),
        asked("since a torn line", "what follows the last line end is not compared", linked, log, OTHER,
              [*sums, "new 1 bytes 16", "marked 2 bytes 48", "leaked 0 bytes 0", "holder 1 16 0 0 0 0x10100 a:[0x1]",
               "holder 1 16 1 16 1 0x10200 b:[0x2]"], "@ a:[0x1] + 0x10100 0x20\nno line"),
        asked("all nodes since five lines", "one payload is later", image, LIST, f"--in 0x10200 {OTHER}",
              ["asked 0x10200 24 2 n:[0x1]", "held 1 bytes 64", "in 1 64 p:[0x2]"], two_lines),
        asked("payloads since five lines", "one of them is later", image, LIST, f"--of 0x10510 {OTHER}",
              ["asked 0x10500 64 5 p:[0x2]", "held 1 bytes 64", "by 1 64 n:[0x1]"], two_lines),
        asked("an earlier payload since five lines", "it is reached, but not counted", image, LIST,
              f"--of 0x10510 --block {OTHER}", ["asked 0x10500 64 5 p:[0x2]", "held 0 bytes 0"], two_lines),
        asked("a lost ring since its first line", "counted or not, it leaked", core(words((0x10100, 0x10200), (0x10200, 0x10100))),
              TWO_BLOCKS, f"--in 0x10100 {OTHER}", ["asked 0x10100 32 1 ?", "leaked"], "+ 0x10100 0x20\n"),
    ]


def earlier(log):
    """An earlier log of half the lines, with a torn one, and how many it has."""
    lines = log.splitlines(True)
    half = len(lines) // 2
    return "".join(lines[:half]) + "x", half


def by_definition():
    """Each sample by every question about its blocks, one plan after another."""
    found = []
    for name, (image, log, step) in SAMPLES.items():
        heap, (first, lines) = Heap(image, log), earlier(log)
        for block in heap.blocks[::step]:
            for side in SIDES:
                for alone in (False, True):
                    options = f"{side} {block.start:#x}{' --block' if alone else ''} {OTHER}"
                    given = (f"{name}, {options}", "by a search without the set", image, log, options)
                    found.append(asked(*given, answer(heap, block, side, alone)))
                    later = (f"{given[0]}, later blocks", *given[1:])
                    found.append(asked(*later, answer(heap, block, side, alone, lines), first))
        found.append(since_by_definition(name, heap, image, log))
    return in_turns(found)


def since_by_definition(name, heap, image, log):
    """The whole report if only later blocks count."""
    first, lines = earlier(log)
    total = sum(block.size for block in heap.blocks)
    head = [f"blocks {len(heap.blocks)} bytes {total}", "undumped 0", "unknown 0 displaced 0 torn 0"]
    return asked(f"{name}, later blocks", "by a search without each text", image, log, OTHER, head + holders_since(heap, lines), first)


def in_turns(cases):
    """Each case by its own plan: the first by none that is named, the next by the first of the plans, and so on."""
    plans = (None, *PLANS)
    return [with_plan(given, plans[place % 4]) if plans[place % 4] else given for place, given in enumerate(cases)]


def random_heap(chance):
    """A core and a log of a few blocks of a few texts: some touch, some have no byte, and words lead anywhere."""
    start, log, spans = 0x10100, "", []
    for _ in range(chance.randint(3, 12)):
        size = chance.choice((0, 8, 16, 24, 32))
        spans.append((start, size))
        log += f"@ {chance.choice('abcde'[:chance.randint(1, 5)])}:[0x1] + {start:#x} {size:#x}\n"
        start += size + chance.choice((0, 8, 16)) + (8 if size == 0 else 0)
    targets = [begin + chance.choice((0, 0, 0, size // 2, size)) for begin, size in spans]
    pairs = [(begin + 8 * place, chance.choice(targets)) for begin, size in spans for place in range(size // 8)
             if chance.random() < 0.6]
    roots = [(0x10008 + 8 * place, chance.choice(targets)) for place in range(chance.randint(1, 2))]
    return core(words(*roots, *pairs)), log


def of_random_heaps():
    """Random heaps, four questions each, and one report of later blocks."""
    chance, found = random.Random(20), []
    for number in range(HEAPS):
        image, log = random_heap(chance)
        first, lines = earlier(log)
        for turn in range(4):
            ends, later, alone = (chance.random() < 0.5 for _ in range(3))
            heap, side = Heap(image, log, ends), SIDES[turn % 2]
            block = chance.choice(heap.blocks)
            options = f"{side} {block.start:#x}{' --block' if alone else ''}{'' if ends else ' --skip-ends'} {OTHER}"
            found.append(asked(f"heap {number}, {turn}, {options}", "by a search without the set", image, log, options,
                               answer(heap, block, side, alone, lines if later else 0), first if later else None))
        found.append(since_by_definition(f"heap {number}", Heap(image, log), image, log))
    return in_turns(found)


def of_words():
    """Words that are refused, in the order of the reasons; no file is there."""
    rows = [
        ("both sides", "--in 0x10100 --of 0x10100", "--in: not with --of"),
        ("both sides, and bad addresses", "--in x --of y", "--in: not with --of"),
        ("both sides, and a block", "--in 0x10100 --of 0x10100 --block", "--in: not with --of"),
        ("a block alone", "--block", "--block: only with --in or --of"),
        ("a block since a log", "--block --since earlier.log", "--block: only with --in or --of"),
        ("no number", "--in 10100", "--in: not 0x and 1 to 16 hexadecimal digits"),
        ("no digit", "--of 0x", "--of: not 0x and 1 to 16 hexadecimal digits"),
        ("seventeen digits", "--in 0x00000000000010100 --block", "--in: not 0x and 1 to 16 hexadecimal digits"),
        ("a bad list and both sides", "--displace x --in 0x10100 --of 0x10100", "--displace: item 0 is not a number"),
        ("a bad list and a block alone", "--displace x --block", "--displace: item 0 is not a number"),
        ("a bad list and a bad address", "--displace x --in y", "--displace: item 0 is not a number"),
    ]
    return [refused(f"questions: {name}", "before any file is opened", f"{LINE} {options}", {}, text) for name, options, text in rows]


def of_files():
    """Files that can't be opened, and inputs that are refused, in the order of the reasons."""
    good = {"core.k": core(), "trace.log": ONE_BLOCK, "earlier.log": ONE_BLOCK}
    without = lambda name: {path: content for path, content in good.items() if path != name}
    since, other = "--since earlier.log", "@ ./a.out:[0x401136] + 0x10200 0x20\n"
    prefix, none = "log 1 is not a prefix of log 2", "no live block holds 0x10300"
    rows = [
        ("no core", since, without("core.k"), unopened("core.k")),
        ("no log", since, without("trace.log"), unopened("trace.log")),
        ("no earlier log", since, without("earlier.log"), unopened("earlier.log")),
        ("no earlier log and no block", f"{since} --in 0x10300", without("earlier.log"), unopened("earlier.log")),
        ("a bad log and another earlier log", since, {**good, "trace.log": ONE_BLOCK + "+ 0x10200\n", "earlier.log": other},
         "input 1: log: line 2 is not an mtrace line"),
        ("another earlier log", since, {**good, "earlier.log": other}, prefix),
        ("a longer earlier log", since, {**good, "earlier.log": ONE_BLOCK + other}, prefix),
        ("another earlier log and no block", f"{since} --of 0x10300", {**good, "earlier.log": other}, prefix),
        ("no block", "--in 0x10300", good, none),
        ("no block since a log", f"--of 0x10300 --block {since}", good, none),
        ("one past the end of a block", "--in 0x10120", good, "no live block holds 0x10120"),
    ]
    return [refused(f"questions: {name}", "the first reason by the order", f"{LINE} {options}", files, text)
            for name, options, files, text in rows]


def of_warnings():
    """Warnings as of the report of holders."""
    image, log = core(words((0x10008, 0x10100), (0x10100, 0x10200))), CHAIN
    lines = ["asked 0x10100 32 1 a:[0x1]", "held 2 bytes 48", "in 1 32 a:[0x1]", "in 1 16 b:[0x2]"]
    lost = ["asked 0x10100 32 1 a:[0x1]", "leaked"]
    return [
        asked("warning", "misfits, as of a search", image, log, "--in 0x10100", lines, warnings=misfits(2, 2)),
        asked("strict", "a warning has a status of its own", image, log, "--in 0x10100 --strict", lines, warnings=misfits(2, 2), status=3),
        asked("strict without a warning", "status 0", image, log, f"--in 0x10100 --strict {OTHER}", lines),
        asked("strict of a lost block", "that it leaked changes no status", core(), log, f"--of 0x10100 --strict {OTHER}", lost),
        asked("strict of a lost block with a warning", "status 3", core(), log, "--of 0x10100 --strict", lost, warnings=misfits(2, 2),
              status=3),
        asked("torn", "the log is told of as ever", image, log + "x", f"--in 0x10100 {OTHER}", lines, warnings=torn()),
        asked("no live block since a log", "there is none to count", core(), "", OTHER,
              ["blocks 0 bytes 0", "undumped 0", "unknown 0 displaced 0 torn 0", "new 0 bytes 0", "marked 0 bytes 0", "leaked 0 bytes 0"],
              "", no_block()),
    ]


def cases():
    """All of them."""
    return worked() + worked_since() + by_definition() + of_random_heaps() + of_words() + of_files() + of_warnings()
