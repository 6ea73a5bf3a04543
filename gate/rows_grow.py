"""What grew between two logs of one process: the worked examples of docs/EXAMPLES.md, warnings, and what is refused."""

from case import case, refused
from texts import displaced, no_block, torn, unknown, unopened

LINE = "grow log.1 log.2"
FIRST = "@ a:[0x1] + 0x10100 0x20\n"
OTHERS = "@ b:[0x2] + 0x10100 0x20\n@ a:[0x1] + 0x10200 0x20\n"


def told(then, now, new, *rows, signs=(0, 0, 0)):
    """The answer. Pairs are blocks and bytes."""
    text = ["then {} bytes {}".format(*then), "now {} bytes {}".format(*now), "new {} bytes {}".format(*new)]
    text.append("unknown {} displaced {} torn {}".format(*signs))
    return "".join(line + "\n" for line in [*text, *(f"grew {row}" for row in rows)])


def grow(name, reason, before, now, text, options="", warnings="", status=0):
    """A question what grew."""
    return case(f"grow: {name}", reason, f"{LINE} {options}", {"log.1": before, "log.2": now}, text, warnings, status)


def of_examples():
    """Blocks that come, go, and come again."""
    return [
        grow("one more", "the second block is new", FIRST, FIRST + "@ a:[0x1] + 0x10200 0x10\n",
             told((1, 32), (2, 48), (1, 16), "16 1 32 2 48 1 16 a:[0x1]")),
        grow("the same log", "no row: the blocks are the same ones", FIRST, FIRST, told((1, 32), (1, 32), (0, 0))),
        grow("gone", "growth is below 0", FIRST, FIRST + "- 0x10100\n",
             told((1, 32), (0, 0), (0, 0), "-32 1 32 0 0 0 0 a:[0x1]"), warnings=no_block(2)),
        grow("another at the same place", "as many bytes, and yet a new block", FIRST, FIRST + "- 0x10100\n" + FIRST,
             told((1, 32), (1, 32), (1, 32), "0 1 32 1 32 1 32 a:[0x1]")),
        grow("an empty one, and two gone", "the greatest growth first, and equal ones by their text", OTHERS,
             OTHERS + "- 0x10100\n- 0x10200\n@ c:[0x3] + 0x10300 0\n",
             told((2, 64), (1, 0), (1, 0), "0 0 0 1 0 1 0 c:[0x3]", "-32 1 32 0 0 0 0 a:[0x1]", "-32 1 32 0 0 0 0 b:[0x2]")),
        grow("no line then", "all is new", "", FIRST, told((0, 0), (1, 32), (1, 32), "32 0 0 1 32 1 32 a:[0x1]"),
             warnings=no_block(1)),
        grow("two empty logs", "there is no text", "", "", told((0, 0), (0, 0), (0, 0)), warnings=no_block(1) + no_block(2)),
        grow("no caller", "blocks without a caller have one text", "+ 0x10100 0x20\n", "+ 0x10100 0x20\n+ 0x10200 0x8\n",
             told((1, 32), (2, 40), (1, 8), "8 1 32 2 40 1 8 ?")),
        grow("a cut line then", "the first log's complete lines begin the second", FIRST + "@ a:[0x1] +",
             FIRST + "@ a:[0x1] + 0x10200 0x10\n", told((1, 32), (2, 48), (1, 16), "16 1 32 2 48 1 16 a:[0x1]"),
             warnings=torn(1)),
    ]


def of_warnings():
    """What is odd about either log is told with its number, and the numbers of the second line of three are those of log 2."""
    odd = FIRST + "- 0x10300\n" + FIRST + "x"
    answer = told((1, 32), (1, 32), (1, 32), "0 1 32 1 32 1 32 a:[0x1]", signs=(1, 1, 1))
    warned = torn(2) + unknown(1, 2) + displaced(1, 2)
    return [
        grow("warnings", "of the second log", FIRST, odd, answer, warnings=warned),
        grow("strict", "a warning has a status of its own", FIRST, odd, answer, "--strict", warned, 3),
        grow("strict without a warning", "status 0", FIRST, FIRST, told((1, 32), (1, 32), (0, 0)), "--strict"),
    ]


def of_refusals():
    """The first log before the second, and then that it does not begin the second."""
    bad, other = "+ 0x10100\n", "+ 0x10100 0x20\n"
    rows = [
        ("a bad first log", bad, FIRST, "input 1: log: line 1 is not an mtrace line"),
        ("two bad logs", bad, bad, "input 1: log: line 1 is not an mtrace line"),
        ("a bad second log", FIRST, FIRST + bad, "input 2: log: line 2 is not an mtrace line"),
        ("a bad second log that begins otherwise", FIRST, bad, "input 2: log: line 1 is not an mtrace line"),
        ("logs of two processes", other + "- 0x10100\n", other, "log 1 is not a prefix of log 2"),
        ("a longer first log", FIRST + OTHERS, FIRST, "log 1 is not a prefix of log 2"),
    ]
    found = [refused(f"grow: {name}", "the first fault", LINE, {"log.1": first, "log.2": second}, text)
             for name, first, second, text in rows]
    return [*found, refused("grow: no second log", "all files are opened first", LINE, {"log.1": FIRST}, unopened("log.2")),
            refused("grow: no first log", "all files are opened first", LINE, {"log.2": FIRST}, unopened("log.1")),
            refused("grow: no log", "the first path is told", LINE, {}, unopened("log.1"))]


def cases():
    """All of them."""
    return of_examples() + of_warnings() + of_refusals()
