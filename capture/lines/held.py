"""Leaked blocks that only suppressed ones lead to: they are suppressed too, as LeakSanitizer does (docs, Suppressions).

A report does not say which leaked block leads to which. leak_what does: of each block whether one other leaked block,
the first one of a structure, is in each chain of leaked blocks to it; and of the first one of a structure which others
lead to it.
"""
from lines import tables, what


def reached(tops, hidden, led):
    """The first blocks of structures to which a chain leads that begins with none of these hidden ones, nor passes
    one."""
    leads = {}
    for address, others in led.items():
        for other in others:
            leads.setdefault(other, []).append(address)
    found = {it for it in tops if it not in led and it not in hidden}
    waiting = list(found)
    while waiting:
        further = {it for it in leads.get(waiting.pop(), ()) if it not in found and it not in hidden}
        found |= further
        waiting += further
    return found


def held_by(read, hidden, facts):
    """The blocks of another text to which only blocks of a hidden text lead that begin structures."""
    blocks = what.blocks_of(read)
    top = {it.address: facts.top.get(it.address, it.address) for it in blocks}
    of_hidden = {it.address for it in blocks if it.text in hidden}
    others = reached(set(top.values()), of_hidden, facts.led)
    return [it for it in blocks if it.text not in hidden and top[it.address] not in others]


def without(caller, gone):
    """The caller without these blocks of it, or None if it has no other."""
    blocks, size, *heads = caller.row.numbers
    left = (blocks - len(gone), size - sum(it.size for it in gone), *heads)
    return caller._replace(row=caller.row._replace(numbers=left)) if left[0] > 0 else None


def suppressed(read, found, facts):
    """The report and its callers without what only suppressed blocks lead to."""
    hidden = {caller.row.text for caller in found.suppressed.get("caller", ())}
    gone = held_by(read, hidden, facts) if hidden and (facts.top or facts.led) else []
    if not gone:
        return read, found
    of_text = {}
    for block in gone:
        of_text.setdefault(block.text, []).append(block)
    left = [without(it, of_text.get(it.row.text, [])) for it in found.shown.get("caller", ())]
    addresses = {it.address for it in gone}
    kept = [part for part in read.parts if not tables.is_about(part.line, addresses)]
    held = (len(gone), sum(it.size for it in gone))
    callers = [it for it in left if it is not None]
    rows = {**read.rows, "caller": [it.row for it in callers + found.suppressed["caller"]]}
    return read._replace(parts=kept, rows=rows), found._replace(shown={"caller": callers} if callers else {}, held=held)
