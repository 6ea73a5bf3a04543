"""Lost blocks by structures: a block that no other lost block leads to, with those that only it leads to."""
from collections import Counter
from typing import NamedTuple

from lines import report, what

MOST_SIZES = 4


class Structure(NamedTuple):
    """The first block of a structure, and all its blocks."""
    head: what.Block
    blocks: list


def structures_of(blocks, facts):
    """The structures of these blocks. One whose first block is not among them begins with the first that is."""
    members = {}
    for block in blocks:
        members.setdefault(facts.top.get(block.address, block.address), []).append(block)
    return [Structure(next((it for it in group if it.address == address), group[0]), group)
            for address, group in members.items()]


def by_kind(structures, facts):
    """Structures whose first blocks have one text and the same fact that tells most, with that of one of them."""
    groups = {}
    for it in structures:
        found = facts.of_block.get(it.head.address)
        groups.setdefault((it.head.text, what.most_telling(found).same if found else None), []).append(it)
    return groups.values()


def row_of(group):
    """Blocks, bytes and structures of a group, the address of the first structure, and its first block's text."""
    blocks = sum(len(it.blocks) for it in group)
    size = sum(block.size for it in group for block in it.blocks)
    return report.Row((blocks, size, len(group)), group[0].head.address, group[0].head.text)


def sizes_of(group):
    """Which sizes the blocks of a group have, those with the most bytes first."""
    counts = Counter(block.size for it in group for block in it.blocks)
    ranked = sorted(counts.items(), key=lambda it: (-it[0] * it[1], it[0]))
    shown = ", ".join(f"size {size} x {count}" for size, count in ranked[:MOST_SIZES])
    return shown + (f", and {len(ranked) - MOST_SIZES} other sizes" if len(ranked) > MOST_SIZES else "")


def lines_of(group, facts):
    """What a table shows below the row of a group, and all facts of first blocks."""
    told, found = what.told_of([it.head.address for it in group], facts)
    has_more = any(len(it.blocks) > 1 for it in group)
    return told + ([f"of which {sizes_of(group)}"] if has_more else []), found


def without_held(facts):
    """The facts without those that the numbers of a structure say too."""
    kept = {address: [it for it in found if it.kind != "holds"] for address, found in facts.of_block.items()}
    return facts._replace(of_block={address: found for address, found in kept.items() if found})


def grouped(read, facts):
    """The report with rows for structures in place of its callers, the most bytes first; and by a row's text and
    address what is shown below it and the facts."""
    facts = without_held(facts)
    groups = [(row_of(group), group) for group in by_kind(structures_of(what.blocks_of(read), facts), facts)]
    groups.sort(key=lambda it: (-it[0].numbers[1], it[0].text, it[0].address))
    rows = {kind: rows for kind, rows in read.rows.items() if kind != "caller"}
    parts = [part._replace(kind="structure") if part.kind == "caller" else part for part in read.parts]
    shown = {(row.text, row.address): lines_of(group, facts) for row, group in groups}
    return read._replace(parts=parts, rows={**rows, "structure": [row for row, _ in groups]}), shown
