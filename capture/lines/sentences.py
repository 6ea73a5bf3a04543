"""What a report says in a sentence, for a person. What it does not tell is left out."""
from lines import remarks
from lines.units import counted, plain

OF_KNOWN = " (of the blocks that could be searched)"


def blocks_of(count):
    """Blocks with their bytes, as a report counts them."""
    return f"{counted(count['blocks'], 'block')}, {plain(count['bytes'])}"


def lost(sums, tops, is_at_both, effect):
    """What was lost, and in how many structures. A search that may have missed something is no answer where it found
    nothing."""
    at_both = " at both moments" if is_at_both else ""
    if not sums["blocks"]:
        is_answer = effect < remarks.HIDES
        return f"none lost{at_both}" if is_answer else f"none found lost{at_both}, but the search is not complete"
    in_structures = f", in {counted(tops, 'structure')}" if tops is not None else ""
    return f"{sums['blocks']:,} lost{at_both}, {plain(sums['bytes'])}{in_structures}"


def leaks(counts, tops, is_at_both, effect):
    """What is in use, and what of it was lost. What is in use is left out where the log lacks blocks."""
    text = lost(counts["leaked"], tops, is_at_both, effect)
    if effect >= remarks.LACKS or "blocks" not in counts:
        return text + OF_KNOWN
    if not counts["blocks"]["blocks"]:
        return "no block in use"
    return f"{blocks_of(counts['blocks'])} in use; {text}"


def holders(counts):
    """What is held."""
    new = counts.get("new")
    of_new = f"; of {counted(new['blocks'], 'new block')}, {plain(new['bytes'])}" if new else ""
    return f"{blocks_of(counts['marked'])} are held{of_new}"


def change(then, now, time=""):
    """By how many bytes a process grew."""
    size = now - then
    return (f"grew by {plain(size)}" if size > 0 else f"shrank by {plain(-size)}" if size else "did not grow") + time


def growth(counts):
    """What grew, by a report of it alone."""
    then, now, new = (counts[word] for word in ("then", "now", "new"))
    return f"{change(then['bytes'], now['bytes'])}, to {blocks_of(now)} in use; " + (
        f"{blocks_of(new)}, are new" if new["blocks"] else "no block is new")


WANTED = {"holder": ("marked",), "grew": ("then", "now", "new"), "in": ("held",), "by": ("held",)}


def of_report(kind, counts, tops, effect):
    """The sentence of a report of this kind, or "" of one that lacks what it would say."""
    if not all(isinstance(counts.get(word), dict) for word in WANTED.get(kind, ("leaked",))):
        return ""
    if kind == "holder":
        return holders(counts)
    if kind == "grew":
        return growth(counts)
    return f"{blocks_of(counts['held'])} are held" if kind in ("in", "by") else leaks(counts, tops, False, effect)
