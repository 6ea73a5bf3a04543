"""The texts that the program prints: reports by the grammar of docs/FORMAT.md, warnings, and refusals."""


def report(blocks, marked, leaked, heads, *lines, undumped=0, signs=(0, 0, 0), freed=None, dead=None,
           new=None, reread=None, misfits=None):
    """A report. Pairs are blocks and bytes; `signs` are unknown, displaced and torn; `lines` come at the end."""
    text = ["blocks {} bytes {}".format(*blocks), f"undumped {undumped}"]
    text.append("unknown {} displaced {} torn {}".format(*signs))
    if freed is not None:
        text.append(f"freed {freed}")
    if dead is not None:
        text.append(f"dead {dead}")
    if new is not None:
        text += ["new {} bytes {}".format(*new), f"reread {reread}"]
    text += ["marked {} bytes {}".format(*marked), "leaked {} bytes {}".format(*leaked), f"heads {heads}"]
    if misfits is not None:
        text.append(f"misfits {misfits}")
    return "".join(line + "\n" for line in [*text, *lines])


def lost(**others):
    """The report if the one block leaked."""
    caller = "caller 1 32 1 ./a.out:[0x401136]"
    return report((1, 32), (0, 0), (1, 32), 1, caller, "leak 0x10100 32 1 head ./a.out:[0x401136]", **others)


def held(**others):
    """The report if the one block is marked."""
    return report((1, 32), (1, 32), (0, 0), 0, **others)


def all_marked(blocks, size, **others):
    """The report if each block is marked."""
    return report((blocks, size), (blocks, size), (0, 0), 0, **others)


def refusal(text):
    """The line of a refusal."""
    return f"leak_find: {text}\n"


def unopened(path, reason="no such file"):
    """The text of a file that can't be opened."""
    return f"cannot open {path}: {reason}"


def warning(text, number=1):
    """The line of a warning of the input with the number."""
    return f"leak_find: warning: input {number}: {text}\n"


def no_block(number=1):
    """The warning that nothing is live."""
    return warning("no live block: the log shows no allocation that was kept", number)


def torn(number=1):
    """The warning that the log was cut."""
    return warning("the log ends inside a line: its last calls are missing", number)


def unknown(count, number=1):
    """The warning of give-backs of nothing."""
    text = "give-backs of blocks that were not live: tracing began late, or lines are missing"
    return warning(f"{count} {text}", number)


def displaced(count, number=1):
    """The warning of allocations over live blocks."""
    return warning(f"{count} allocations over a live block: lines are missing or out of order", number)


def misfits(count, live, number=1):
    """The warning of blocks that have no chunk."""
    text = "live blocks have no chunk of their size in use in the core: the log is of another moment, or of another process"
    return warning(f"{count} of {live} {text}", number)
