"""What was lost, for a person: a row for each kind of structure, with who allocated it, or with what it is."""
import re
from collections import Counter
from typing import NamedTuple

from lines import columns, frames, signal_stacks, structures, what
from lines.units import counted, plain

START = ("_start", "__libc_start_main", "__libc_start_main_impl", "__libc_start_call_main", "start_thread", "clone",
         "__clone", "clone3", "__clone3")
SIZE = re.compile("size [0-9]+")
MOST_SIZES, WIDEST_FACT = 4, 120
TITLES = ("lost", "blocks", "structures")
NONE = what.Facts({}, {}, {})


class Group(NamedTuple):
    """Lost blocks of a row: the text of the log, all of them, and the first ones of its structures, or None where these
    are not known."""
    text: str
    blocks: list
    heads: list


def is_caller(text):
    """Whether the text of the log has a place in a file."""
    return frames.frame_of(frames.parts_of(text)[0]).path != ""


def by_structure(blocks, facts):
    """The groups of lost structures: those of a caller are one, others are by what tells most of their first blocks."""
    groups = {}
    for it in structures.structures_of(blocks, facts):
        found = facts.of_block.get(it.head.address)
        key = it.head.text, what.most_telling(found).same if found and not is_caller(it.head.text) else None
        groups.setdefault(key, []).append(it)
    return [Group(text, [block for it in group for block in it.blocks], [it.head for it in group])
            for (text, _), group in groups.items()]


def by_text(blocks):
    """The groups where structures are not known."""
    groups = {}
    for block in blocks:
        groups.setdefault(block.text, []).append(block)
    return [Group(text, group, None) for text, group in groups.items()]


def bytes_of(group):
    """The bytes of a group's blocks."""
    return sum(block.size for block in group.blocks)


def groups_of(read, facts):
    """The groups of the report's lost blocks, the most bytes first. `facts` is None where leak_what told none."""
    blocks = what.blocks_of(read)
    found = by_text(blocks) if facts is None else by_structure(blocks, facts)
    return sorted(found, key=lambda it: (-bytes_of(it), it.text, it.blocks[0].address))


def in_words(fact):
    """The fact in words."""
    if fact.kind in ("word", "literal"):
        return f"points to {fact.words[1]} at {fact.words[0]}"
    return fact.text


def about_heads(group, facts):
    """What the first blocks of the structures have in common, and how many of them, in a list of a pair or none."""
    known = [(it.address, facts.of_block[it.address]) for it in group.heads if it.address in facts.of_block]
    found = what.shared((address, what.most_telling(of_block)) for address, of_block in known)
    if not found:
        return []
    first = found[0]
    text = in_words(first.fact)
    text = text if len(text) <= WIDEST_FACT else text[:WIDEST_FACT - 2] + ".."
    others = f" and {counted(first.others, 'other text')}" if first.others else ""
    return [(text, others + (f": {first.count:,} of {len(group.heads):,}" if first.count < len(group.heads) else ""))]


def about_sizes(group):
    """How large the blocks are: those of the most bytes first."""
    ranked = sorted(Counter(block.size for block in group.blocks).items(), key=lambda it: (-it[0] * it[1], it[0]))
    if len(ranked) == 1:
        return f"{counted(ranked[0][1], 'block')} of {counted(ranked[0][0], 'byte')}"
    is_plain = all(count == 1 for _, count in ranked)
    shown = [f"{size:,}" if is_plain else f"{count:,} of {size:,}" for size, count in ranked[:MOST_SIZES]]
    more = [f"{len(ranked) - MOST_SIZES:,} other sizes"] if len(ranked) > MOST_SIZES else []
    text = " and ".join([", ".join((shown + more)[:-1]), (shown + more)[-1]]) + ("" if more else " bytes")
    return ("blocks of " if is_plain else "") + text


def without_start(places):
    """The places without those that only start a program or a thread, and what called these."""
    first = next((i for i, place in enumerate(places) if i and place.function in START), len(places))
    return places[:first]


def entry_of(group, facts, names, marks):
    """The entry of a group in the table, with names of its callers, and with remarks by their texts."""
    has_places = is_caller(group.text)
    texts = [] if has_places or SIZE.fullmatch(group.text) else [what.visible(group.text)]
    texts += about_heads(group, facts) if group.heads else []
    texts += [] if has_places and len(group.blocks) == 1 else [about_sizes(group)]
    texts += [marks[group.text]] if group.text in marks else []
    places = [place.shown for place in without_start(names.places_of(group.text))] if has_places else []
    numbers = [plain(bytes_of(group)), f"{len(group.blocks):,}", f"{len(group.heads or ()):,}"]
    return columns.Entry(numbers, places, texts)


def rest_of(groups, shown):
    """The last line, of the groups that are not shown, in a list of a line or none."""
    left = groups[shown:]
    size, blocks = sum(map(bytes_of, left)), sum(len(it.blocks) for it in left)
    line = f"and {counted(len(left), 'more row')}: {plain(size)} in {counted(blocks, 'block')}"
    return [f"{line}; -n {len(groups)} shows all"] if left else []


def listed(read, facts):
    """A line for each lost block, those that were lost with another one behind it, and what is known of it."""
    facts, lines = facts or NONE, []
    for it in structures.structures_of(what.blocks_of(read), facts):
        for block in [it.head] + [block for block in it.blocks if block is not it.head]:
            begin = "" if block is it.head else "  "
            lines.append(f"{begin}{block.address}  {counted(block.size, 'byte')}")
            lines += [f"{begin}    {in_words(fact)}" for fact in facts.of_block.get(block.address, [])]
    return lines


def table_of(groups, facts, read, files, asked):
    """The table of what was lost, and a last line of what is left out. `asked` has the most rows, and the paper."""
    most, sheet = asked
    chosen = groups[:most]
    names = frames.Names(frames.frames_of_all(it.text for it in chosen if is_caller(it.text)), files)
    marks = dict.fromkeys(signal_stacks.marked(read, files.told.stacks), signal_stacks.MARK)
    entries = [entry_of(it, facts or NONE, names, marks) for it in chosen]
    has_structures = any(it.heads and len(it.heads) < len(it.blocks) for it in groups)
    return columns.lay_out(TITLES if has_structures else TITLES[:2], entries, sheet) + rest_of(groups, len(chosen))
