"""A report as one JSON object: its counts, and its callers with their frames. docs/FORMAT.md has the schema."""
import json
import re
from functools import lru_cache

from lines import report

VERSION = 1
NAMES = {
    "caller": ("blocks", "bytes", "heads"),
    "holder": ("blocks", "bytes", "own_blocks", "own_bytes", "within"),
    "in": ("blocks", "bytes"),
    "by": ("blocks", "bytes"),
    "structure": ("blocks", "bytes", "structures"),
    "grew": ("growth", "blocks_then", "bytes_then", "blocks", "bytes", "new_blocks", "new_bytes"),
}
REPORTS = {"caller": "leaks", "holder": "holders", "in": "in", "by": "by", "grew": "grow", "structure": "structures"}
PAIR = re.compile("([a-z]+) ([0-9]+)")
SIZED = re.compile("([a-z]+) ([0-9]+) bytes ([0-9]+)")


def clean(text):
    """The text as Unicode: a byte that is no UTF-8 is U+FFFD."""
    return text.encode("utf-8", "surrogateescape").decode("utf-8", "replace")


def counts_of(read):
    """The numbers of the lines that count: of blocks with their bytes a pair, of others one."""
    found = {}
    for part in read.parts:
        sized = SIZED.fullmatch(part.line)
        if sized:
            found.setdefault(sized[1], {"blocks": int(sized[2]), "bytes": int(sized[3])})
        elif re.fullmatch(f"{PAIR.pattern}( {PAIR.pattern})*", part.line):
            found.update((name, int(number)) for name, number in PAIR.findall(part.line) if name not in found)
    return found


@lru_cache(maxsize=None)
def frame_of(place):
    """The parts of a frame, as JSON. What is not known is null."""
    return json.dumps({"function": clean(place.function) or None, "file": clean(place.file) or None,
                       "line": place.line or None,
            "module": clean(place.module) or None, "offset": place.address if place.module else None,
            "inlined": place.is_inlined, "text": clean(place.text), "unnamed": place.problem or None})


def facts_of(caller, said):
    """What is said of the row's blocks: each fact with one block that it is of, and how many share it."""
    found = [{"fact": clean(it.fact.kind), "text": clean(it.fact.text), "blocks": it.count, "block": it.address}
             for it in said.facts(caller.row)]
    return {"what": found} if said.of_block else {}


def caller_of(kind, caller, said, remark):
    """A row with its frames, as JSON. Frames are many, and mostly the same ones."""
    beside = {"address": caller.row.address} if caller.row.address else {}
    beside.update({"remark": remark} if remark else {})
    numbers = json.dumps({**dict(zip(NAMES[kind], caller.row.numbers)), **beside, **facts_of(caller, said)})
    return numbers.removesuffix("}") + ', "frames": [' + ", ".join(map(frame_of, caller.places)) + "]}"


def head_of(read, found, kind):
    """What the document has beside its callers."""
    blocks, size = found.suppressed_sums()
    return {"version": VERSION, "report": REPORTS[kind], "counts": counts_of(read),
            "suppressed": {"blocks": blocks, "bytes": size}}


def lines_of(read, found):
    """The document, with a line for each caller, so that line by line is a way to read it too."""
    kind = report.kind_of(read)
    rows = [caller_of(kind, it, found.what, found.remarks.get(it.row.text)) for it in found.shown.get(kind, [])]
    first = json.dumps(head_of(read, found, kind)).removesuffix("}") + ', "callers": ['
    return [first] + [row + "," for row in rows[:-1]] + rows[-1:] + ["]}"]
