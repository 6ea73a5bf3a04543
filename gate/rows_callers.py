"""Rows of callers: by descending bytes, and of equal bytes by the ascending bytes of their texts."""

from case import case, one
from cores import core, word
from texts import report

SIZE = 32


def lost_blocks(name, reason, texts, rows):
    """A log of blocks of 32 bytes by these callers, from 0x10100 on, which all leak; and the rows: text and blocks."""
    starts = [0x10100 + 0x100 * place for place in range(len(texts))]
    log = "".join(f"{f'@ {text} ' if text else ''}+ {start:#x} {SIZE:#x}\n" for start, text in zip(starts, texts))
    callers = [f"caller {count} {count * SIZE} {count} {text}" for text, count in rows]
    leaks = [f"leak {start:#x} {SIZE} {line} head {text or '?'}" for line, (start, text) in enumerate(zip(starts, texts), 1)]
    totals = ((len(texts), SIZE * len(texts)), (0, 0), (len(texts), SIZE * len(texts)), len(texts))
    return one(f"callers: {name}", reason, core(), log, report(*totals, *callers, *leaks))


def once(*texts):
    """Rows of a block each."""
    return [(text, 1) for text in texts]


def of_equal_bytes():
    """All rows have 32 bytes, so the texts' bytes decide."""
    many = ["./a:[0x12345679]", "./a:[0x1][0x3]", "./a:[0x1]", "./a:", "./a:[0x12345678]", "./a:[0x2]"]
    zeros = ["./a:1", "./a:1\0", "./a:1\0\0", "./a:\0", "./a:"]
    files = ["", "./b:[0x2]", "./b:[0x1]", "/c:[0x3]", "!d:[0x4]", ".", "./a:[0x5]"]
    return [
        lost_blocks("of one file", "a text stands before those that it begins, and 2 (0x32) before ] (0x5d)", many,
                    once("./a:", "./a:[0x12345678]", "./a:[0x12345679]", "./a:[0x1]", "./a:[0x1][0x3]", "./a:[0x2]")),
        lost_blocks("zero bytes", "a zero byte is a byte as any other", zeros,
                    once("./a:", "./a:\0", "./a:1", "./a:1\0", "./a:1\0\0")),
        lost_blocks("of other files", "! . / and ? stand in this order; no caller is told as ?", files,
                    once("!d:[0x4]", ".", "./a:[0x5]", "./b:[0x1]", "./b:[0x2]", "/c:[0x3]", "?")),
    ]


def of_more_blocks():
    """A caller has one row, wherever its blocks are."""
    return [
        lost_blocks("in turn", "two blocks of one caller have more bytes", ["./b:[0x1]", "./a:1", "./a:2", "./a:1"],
                    [("./a:1", 2), ("./a:2", 1), ("./b:[0x1]", 1)]),
        lost_blocks("one alone", "all blocks have one caller", ["./a:[0x1]", "./a:[0x1]"], [("./a:[0x1]", 2)]),
        lost_blocks("a question mark and none", "both are told as ?, so they have one row", ["?", ""], [("?", 2)]),
        of_one_head(),
    ]


def of_one_head():
    """Two callers that are told alike: one block is held by the other, and a third is held by a root."""
    log = "@ ? + 0x10100 0x20\n+ 0x10200 0x10\n+ 0x10300 0x8\n"
    answer = report((3, 56), (1, 8), (2, 48), 1, "caller 2 48 1 ?", "leak 0x10100 32 1 held ?", "leak 0x10200 16 2 head ?")
    return one("callers: a row with one head", "the second block leads to the first",
               core(word(0x10200, 0x10100), word(0x10008, 0x10300)), log, answer)


def of_odd_bytes():
    """A caller that is no UTF-8, and one of each byte but the line feed. It ends at its last bracket, so that one is last."""
    found = []
    every = bytes(byte for byte in range(256) if byte not in b"\n]") + b"]"
    for name, text in (("no UTF-8", b"\xff\xfe"), ("each byte", every)):
        log = b"@ " + text + b" + 0x10100 0x20\n"
        start = report((1, 32), (0, 0), (1, 32), 1).encode()
        answer = start + b"caller 1 32 1 " + text + b"\nleak 0x10100 32 1 head " + text + b"\n"
        found.append(case(f"callers: {name}", "the bytes are told as they are", "one core.k trace.log --other-heap",
                          {"core.k": core(), "trace.log": log}, answer, "", 1))
    return found


def cases():
    """All cases of callers."""
    return of_equal_bytes() + of_more_blocks() + of_odd_bytes()
