"""Rows that may be alternate signal stacks: a core that does not tell these leaves their blocks to look lost.

leak_log and leak_walk write how many threads may have one that is not known, and the usual size of this processor:
`= leak_log signal stacks THREADS SIZE`. The kernel's own cores tell none, and leak_core's those of the threads that it
could ask. A block is marked if it has a size that programs use for such stacks, and if all blocks of such sizes are no
more than these threads. Own rule: what a program asked for is not known, so the mark says no more than 'may be'.
"""
import re
from typing import NamedTuple

from lines import report

REMARK = re.compile(rb"\n= leak_log signal stacks (0|[1-9][0-9]{0,9}) (0|[1-9][0-9]{0,9})(?=\n)")
USED = (2048, 8192, 16384, 32768, 65536)  # MINSIGSTKSZ, SIGSTKSZ and their multiples, by programs of Debian
MARK = "may be the alternate signal stack of a thread"


class Unknown(NamedTuple):
    """How many threads may have a stack that is not known, and the usual size on their processor, or 0."""
    threads: int = 0
    usual: int = 0


def last_in(part, known):
    """What the last such remark in this part of a log says, or what was known before."""
    found = REMARK.findall(part)
    return Unknown(*map(int, found[-1])) if found else known


def usable(size):
    """What glibc's malloc gives for so many bytes: a chunk of a multiple of 16 bytes less the 8 of its size word."""
    return (size + 8 + 15) // 16 * 16 - 8


def sizes(unknown):
    """The sizes of blocks that may be such a stack, as a report has them."""
    used = USED + ((unknown.usual,) if unknown.usual else ())
    return {str(size) for size in (*used, *map(usable, used))}


def marked(read, unknown):
    """The texts of the callers all of whose lost blocks may be such stacks."""
    if not unknown.threads:
        return set()
    known, may_be, others = sizes(unknown), [], set()
    for part in read.parts:
        size, text = report.leak_of(part.line, read.has_heads)
        if size is not None and size in known:
            may_be.append(text)
        elif size is not None:
            others.add(text)
    return set(may_be) - others if len(may_be) <= unknown.threads else set()


def with_marks(found, read, unknown):
    """The callers, with a remark on those that may be such stacks."""
    return found._replace(remarks=dict.fromkeys(sorted(marked(read, unknown)), MARK))
