"""What grew, for a person: a sentence, a row for each caller with who holds it, and who retains the new memory."""
import os

from lines import chains, columns, frames, growth, inputs, lost, progress, report, sentences, what
from lines.units import counted, plain, signed_plain

TITLES, HOLDER_TITLES = ("grew", "new blocks", "held", "lost"), ("holds", "blocks")
MOST_HOLDERS, MOST_ASKED = 10, 3


def time_in_words(seconds):
    """So many seconds, of many the minutes."""
    return counted(seconds, "second") if seconds < 120 else counted((seconds + 30) // 60, "minute")


def new_in_words(found):
    """What became of the new blocks."""
    new, gone = found.new, found.lost
    if not new.blocks:
        return "no block is new"
    begin = f"of {counted(new.blocks, 'new block')}, {plain(new.size)}, "
    if not gone.blocks or gone == new:
        return begin + ("none is lost" if not gone.blocks else "all are lost")
    held = f"{new.blocks - gone.blocks:,} are held, {plain(new.size - gone.size)}"
    return f"{begin}{held}, and {gone.blocks:,} are lost, {plain(gone.size)}"


def sentence(found, seconds, is_whole):
    """By how much the process grew. Where not all blocks are known, that is said."""
    begin = sentences.change(found.then.size, found.now.size, f" in {time_in_words(seconds)}")
    in_use = f", to {counted(found.now.blocks, 'block')}, {plain(found.now.size)} in use"
    return f"{begin}{in_use if is_whole else sentences.OF_KNOWN}; {new_in_words(found)}"


def is_shown(row):
    """Whether the row is one of what grew or was lost."""
    return row.growth > 0 or row.lost.blocks > 0


def texts_of(text):
    """What stands for a text of the log that has no place."""
    size = lost.SIZE.fullmatch(text)
    return [f"blocks of {int(text.removeprefix('size ')):,} bytes" if size else what.visible(text)]


def places_of(text, names):
    """The functions and places of a text, and the lines in their stead where it has none."""
    if not lost.is_caller(text):
        return [], texts_of(text)
    return [place.shown for place in lost.without_start(names.places_of(text))], []


def holder_in_words(dump, address):
    """The root of a shortest chain to the block, and how many blocks are between, in a list of a line or none."""
    chain = chains.chain_to(dump, address) if dump else []
    if not chain:
        return []
    between = len(chain) - 2
    through = f", through {counted(between, 'other block')}" if between > 0 else ""
    return [f"one is held by {chain[0].strip()}{through}"]


def holders_of(asked, rows, gone):
    """By text, who holds a new block of the first rows of which some are held."""
    texts = [row.text for row in rows if row.held > 0][:asked.why or MOST_ASKED]
    dump = chains.dump_beside(asked.path)
    dump = dump and chains.Dump(*map(os.path.abspath, dump))
    progress.SHOWN.begin("asks who holds what is new")
    found = growth.new_blocks(asked.path, texts, gone) if dump else {}
    return {text: holder_in_words(dump, address) for text, address in found.items()}


def about_lost(addresses, facts):
    """What the lost ones of a row are, in a list of a line or none."""
    group = lost.Group("", [], [what.Block(address, size, "") for address, size in addresses])
    return [(f"lost: {text}", end) for text, end in lost.about_heads(group, facts)]


def entry_of(row, names, below):
    """The entry of a row in the table."""
    places, texts = places_of(row.text, names)
    blocks, held = f"{row.new.blocks:,}" if row.new.blocks else "", plain(row.held) if row.held else ""
    gone = plain(row.lost.size) if row.lost.blocks else ""
    return columns.Entry([signed_plain(row.growth), blocks, held, gone], places, texts + below)


def names_for(texts, files):
    """The names of the callers in these texts."""
    return frames.Names(frames.frames_of_all(it for it in texts if lost.is_caller(it)), files)


def table_of(found, gone, facts, files, asked):
    """The table of what grew, and a last line of what is left out. `asked` has the options, the most rows, and the
    paper."""
    options, most, sheet = asked
    rows = [row for row in found.rows if is_shown(row)]
    chosen = rows[:most]
    holders, names = holders_of(options, chosen, gone), names_for([row.text for row in chosen], files)
    below = [holders.get(it.text, []) + about_lost(gone.get(it.text, ()), facts) for it in chosen]
    entries = [entry_of(it, names, lines) for it, lines in zip(chosen, below)]
    left = rows[len(chosen):]
    grew = signed_plain(sum(row.growth for row in left))
    more = f"and {counted(len(left), 'more row')}: {grew}; -n {len(rows)} shows all"
    return columns.lay_out(TITLES, entries, sheet) + ([more] if left else [])


def holders_table(path, files, sheet):
    """Who retains new memory of others: the callers whose blocks no other caller's blocks retain."""
    read = report.read(inputs.read_lines(inputs.beside(path, ".holders")))
    rows = [row for row in read.rows.get("holder", ()) if row.numbers[4] == 0 and row.numbers[1] > row.numbers[3]]
    chosen = rows[:MOST_HOLDERS]
    names = names_for([row.text for row in chosen], files)
    entries = [columns.Entry([plain(row.numbers[1]), f"{row.numbers[0]:,}"], *places_of(row.text, names))
               for row in chosen]
    left = rows[len(chosen):]
    more = [f"and {counted(len(left), 'more holder')}, none of more than {plain(left[0].numbers[1])}"] if left else []
    lines = columns.lay_out(HOLDER_TITLES, entries, sheet)
    return ["Blocks that retain other new blocks:", *lines, *more] if lines else []
