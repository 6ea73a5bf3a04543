"""What the programs of a run said beside their work, for a person: in plain words, each once, and what it means.

Own rule: what no rule here knows is a warning, and keeps a search that found nothing from being told as an answer.
"""
import re
from typing import NamedTuple

from lines import shown

# What a remark means: nothing; a row may be wrong; a leak may be missing; and blocks in use are not all known either.
NOTE, MISNAMES, HIDES, LACKS = range(4)

# Said of every run, or said better by the report itself.
USUAL = tuple(re.compile(it) for it in (
    "leak_dump: there is no table by leak_trace: the blocks of .* are by the heap in the core",
    "leak_dump: the blocks of .* are by leak_trace's table",
    "leak_dump: the blocks of .* are by the heap in the core, and their callers by leak_trace's table, which began.*",
    "leak_dump: now search: .*",
    "leak_dump: its blocks are adjacent: its heap is not glibc's",
    "leak_dump: the blocks are of .*: its heap is not glibc's",
    "leak_walk: [0-9]+ blocks of [0-9]+ bytes in use[,;] .*",
    "leak_walk: of [0-9]+ blocks of the table the heap has [0-9]+: of these the callers are known",
    "leak_walk: malloc was never called: there is no block",
    "leak_log: undumped: of [0-9]+ bytes [0-9]+ are leak_trace's own, .*",
    "leak_log: the allocator is .*: search with --other-heap --skip-ends",
    "leak_what: [0-9]+ of [0-9]+ blocks have a type, by the debug information of [0-9]+ files",
    "leak_report: leak_find (one|two) .*",
))
STOOD = re.compile("leak_(?:core|attach): process [0-9]+ was stopped for ([0-9]+) ms(?:, and .*|; .*)?")

WRONG = "what only that memory points to is listed as lost"
RULES = tuple((re.compile(shape), effect, text) for shape, effect, text in (
    ("leak_(?:walk|log): undumped: ([0-9]+ bytes of .*): (.*)", MISNAMES, "The dump lacks {0} ({1}): " + WRONG + "."),
    ("leak_core: ([0-9]+ bytes) could not be read: .*", MISNAMES,
     "The dump lacks {0}, which could not be read: " + WRONG + "."),
    ("leak_core: ([0-9]+ bytes) are not there, and the program is to supply them .*", MISNAMES,
     "The dump lacks {0} that the program supplies by userfaultfd: " + WRONG + "."),
    ("leak_find: warning: input [12]: ([0-9]+ of [0-9]+) live blocks have no chunk of their size .*", HIDES,
     "{0} blocks don't fit the core's heap: core and log may be of different moments or processes."),
    ("leak_find: warning: input [12]: no live block.*", HIDES, "There is no block to search."),
    ("leak_find: warning: input [12]: ([0-9]+) give-backs of blocks that were not live: .*", HIDES,
     "The log has {0} frees of blocks that were not live: it may be incomplete."),
    ("leak_find: warning: input [12]: ([0-9]+) allocations over a live block: .*", HIDES,
     "The log has {0} allocations over a live block: it may be incomplete."),
    ("leak_find: warning: input [12]: the log ends inside a line.*", HIDES,
     "The log is cut off: its last calls are missing."),
    ("leak_walk: (.*): ([0-9]+) things are as while a thread changes them, or damaged, the first: (.*)", LACKS,
     "The heap of {0} was being changed during the dump, or is damaged, in {1} places (the first: {2}): dump again."),
    ("leak_walk: ([0-9]+) (free chunks have no size behind them|lists of free chunks lead nowhere), the first at "
     "(0x[0-9a-f]+): .*", LACKS, "The dump came in the middle of a malloc, or the heap is damaged at {2}: dump again."),
    ("leak_walk: the blocks of (.*) are not in the log: (.*)", LACKS, "The blocks of {0} were not searched: {1}."),
    ("leak_walk: (.*): its blocks are not in the log", LACKS, "The blocks of {0} were not searched."),
    ("leak_walk: the log is not complete: ([0-9]+ bytes) of the heap are left out", LACKS,
     "{0} of the heap were not searched."),
    ("leak_log: ([0-9]+) blocks found no place in the table \\((.*)\\): .*", LACKS,
     "leak_trace had no room for {0} blocks ({1}): leaks among them are not reported."),
    ("leak_dump: .*, and their callers by leak_trace's table, which missed ([0-9]+) blocks", NOTE,
     "leak_trace had no room for {0} blocks, so these have no functions."),
    ("leak_log: ([0-9]+) blocks were freed behind leak_trace's back: .*", MISNAMES,
     "{0} blocks were freed in ways that leak_trace does not see: freed blocks may be listed as lost."),
    ("leak_report: this leak_find was compiled without its proofs (.*)", NOTE,
     "This leak_find was compiled without its proofs {0}."),
    ("leak_report: leak_what failed: the report .*", NOTE,
     "leak_what failed, so the report does not say what the blocks are."),
))
# What is plain as it is said.
AS_SAID = tuple((re.compile(shape), effect) for shape, effect in (
    ("leak_core: of shared memory the core lacks .*", MISNAMES),
    ("leak_core: of [0-9]+ of [0-9]+ threads it is not known .*", MISNAMES),
    ("leak_core: [0-9]+ requests of io_uring are in flight: .*", MISNAMES),
    ("leak_core: the process handed more words to the kernel than were read .*", MISNAMES),
    ("leak_core: [0-9]+ bytes at 0x[0-9a-f]+ stay mapped in the process", NOTE),
    ("leak_core: the code of the process could not be read in .*", NOTE),
    ("leak_log: the program keeps .* out of cores .*", MISNAMES),
    ("leak_log: [0-9]+ blocks are just being moved by realloc, .*", HIDES),
    ("leak_log: .* keeps addresses of blocks, so leaks may be hidden .*", HIDES),
    ("leak_(?:walk|log): undumped: [0-9]+ bytes of further files", MISNAMES),
    ("leak_(?:walk|log): paths of files are left out of the log .*", NOTE),
    ("leak_dump: .* has no callers, and so .* has none either: .*", NOTE),
))
OF_NAMES = ("leak_lines: ", "leak_what: ", "leak_types: ")  # who says nothing of what was searched
PREFIX = re.compile("leak_[a-z]+: (?:warning: )?")
COUNTED = {
    "undumped": (MISNAMES, "The dump lacks {} bytes of writable memory: " + WRONG + "."),
    "unknown": (HIDES, "The log has {} frees of blocks that were not live: it may be incomplete."),
    "displaced": (HIDES, "The log has {} allocations over a live block: it may be incomplete."),
    "torn": (HIDES, "The log is cut off: its last calls are missing."),
    "misfits": (HIDES, "{} blocks don't fit the core's heap: core and log may not belong together."),
}
# In a line that says of a count what the count says.
TOLD = {"undumped": ": undumped: ", "unknown": " give-backs of blocks ", "displaced": " allocations over a ",
        "torn": "ends inside a line", "misfits": "live blocks have no chunk"}


class Remarks(NamedTuple):
    """The warnings, the worst of what they mean, and for how many milliseconds the process was stopped each time."""
    warnings: list
    effect: int
    stood: list


def as_sentence(text):
    """The text as a sentence."""
    return text[:1].upper() + text[1:] + ("" if text.endswith((".", ")")) else ".")


def known(line):
    """What the line means, and its text, "" of one that a person needs not; or None if no rule knows it."""
    if any(it.fullmatch(line) for it in (*USUAL, STOOD)) or not line:
        return NOTE, ""
    for shape, effect, text in RULES:
        match = shape.fullmatch(line)
        if match:
            return effect, text.format(*match.groups())
    effect = next((effect for shape, effect in AS_SAID if shape.fullmatch(line)), None)
    effect = NOTE if effect is None and line.startswith(OF_NAMES) else effect
    return None if effect is None else (effect, as_sentence(PREFIX.sub("", line, count=1)))


def remark_of(line):
    """What the line means, and its text."""
    return known(line) or (LACKS, as_sentence(PREFIX.sub("", line, count=1)))


def of_counts(counts, lines):
    """What the report itself counts against it, if none of these lines says so already."""
    return [(effect, text.format(f"{counts[name]:,}")) for name, (effect, text) in COUNTED.items()
            if counts.get(name) and not any(TOLD[name] in it for it in lines)]


def read(lines, counts):
    """The remarks of these lines, and those of the report's counts."""
    stood = [STOOD.fullmatch(line) for line in lines]
    found = [remark_of(shown.visible(line)) for line in lines]
    found += of_counts(counts, lines)
    found = list(dict.fromkeys(it for it in found if it[1]))
    found.sort(key=lambda it: it[0] == NOTE)
    lines = [f"{'Note' if effect == NOTE else 'Warning'}: {text}" for effect, text in found]
    return Remarks(list(dict.fromkeys(lines)), max((it[0] for it in found), default=NOTE),
                   [int(match[1]) for match in stood if match])
