"""What a table shows of each kind of row: titles, cells, and a last line about the rows that are left out.

A cell of None means that the report does not say it: that column is left out.
"""
from lines.units import share, signed_size, size

TITLES = {
    "caller": ("bytes", "blocks", "heads"),
    "holder": ("held", "share", "blocks", "own", "within", "address"),
    "in": ("held", "share", "blocks"),
    "by": ("held", "share", "blocks"),
    "grew": ("growth", "share", "blocks", "new"),
    "structure": ("bytes", "blocks", "structures"),
}


def caller_cells(row, _):
    """Bytes, blocks, and heads where they are counted."""
    blocks, lost, *heads = row.numbers
    return [str(lost), str(blocks), str(heads[0]) if heads else None]


def holder_cells(row, whole):
    """What the blocks of this caller hold, what they have themselves, how many other callers hold each of them, and one
    of them."""
    blocks, held, _, own, within = row.numbers
    return [size(held), share(held, whole), str(blocks), size(own), str(within), row.address]


def held_cells(row, whole):
    """What is held of this caller, or by it."""
    blocks, held = row.numbers
    return [size(held), share(held, whole), str(blocks)]


def growth_cells(row, whole):
    """The growth, the blocks that are there now, and how many of them are new."""
    growth, _, _, blocks, _, new, _ = row.numbers
    return [signed_size(growth), share(growth, whole), str(blocks), f"+{new}" if new else "0"]


CELLS = {"caller": caller_cells, "holder": holder_cells, "in": held_cells, "by": held_cells, "grew": growth_cells,
         "structure": caller_cells}


def total(rows, index):
    """The sum of one number of all rows."""
    return sum(row.numbers[index] for row in rows)


def rest(kind, rows):
    """The last line of a table without these rows. What holders hold overlaps, so it has no sum: their own blocks have
    one."""
    begin = f"and {len(rows)} more"
    if kind == "caller":
        heads = f", {total(rows, 2)} heads" if len(rows[0].numbers) > 2 else ""
        return f"{begin}: {total(rows, 1)} bytes, {total(rows, 0)} blocks{heads}"
    if kind == "structure":
        return f"{begin}: {total(rows, 1)} bytes, {total(rows, 0)} blocks, {total(rows, 2)} structures"
    if kind == "holder":
        own = f"{size(total(rows, 3))} in {total(rows, 2)} own blocks"
        return f"{begin}, none holds more than {size(rows[0].numbers[1])}: {own}"
    if kind == "by":
        return f"{begin}, none holds more than {size(rows[0].numbers[1])}"
    if kind == "in":
        return f"{begin}: {size(total(rows, 1))} in {total(rows, 0)} blocks"
    return f"{begin}: {signed_size(total(rows, 0))}, {total(rows, 3)} blocks, {total(rows, 5)} new"
