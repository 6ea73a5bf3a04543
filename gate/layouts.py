"""Core files of random processes: orderly ones, of which a search keeps only some words, and others, which it holds.

In an orderly file headers and notes come first, and then memory in the order of its addresses, each word at a multiple
of 8. Both kinds of file say the same of the process.
"""

from cores import file_header, header, little, section_count

SEGMENT, NOTES, OTHER = 1, 4, 0x6474E551


class File:
    """A core file, part by part."""

    def __init__(self, rng, process):
        """The file of the process, so far as long as its header."""
        self.rng, self.process = rng, process
        self.image = bytearray(64)
        self.offsets = {("other", 0): 0}

    def put(self, part, skew=0):
        """Appends a part, after a gap at times. A segment's words are at multiples of 8 without a skew."""
        self.image += self.rng.randbytes(self.rng.choice((0, 0, 0, 1, 4, 8, 24)))
        if part[0] == "segment":
            start = self.process.segments[part[1]].start + skew
            self.image += bytes((start - len(self.image)) % 8)
        self.offsets[part] = len(self.image)
        self.image += self.content_of(part)

    def align(self):
        """Goes on at a multiple of 8, since no byte of memory is within eight bytes that the head ends in."""
        self.image += bytes(-len(self.image) % 8)

    def content_of(self, part):
        """The bytes of a part. The table is written at the end."""
        kind, number = part
        if kind == "segment":
            return self.process.segments[number].content
        return {"notes": lambda: self.process.notes[number], "table": lambda: bytes(56 * len(self.process.rows)),
                "section": lambda: bytes(64)}[kind]()

    def row(self, part):
        """The program header of a part."""
        kind, number = part
        at = self.offsets.get(part, self.rng.randrange(1 << 20))
        if kind == "segment":
            it = self.process.segments[number]
            return header(SEGMENT, it.flags, at, it.start, len(it.content), it.size)
        if kind == "notes":
            return header(NOTES, 4, at, 0, len(self.process.notes[number]), 0)
        return header(OTHER, 6, self.rng.randrange(1 << 20), 0x1000, 64, 64)

    def finished(self):
        """The bytes of the file, with its header and its table."""
        rows = self.process.rows
        self.image[:64] = file_header(len(rows))
        table = self.offsets["table", 0]
        self.image[32:40] = little(table)
        self.image[table:table + 56 * len(rows)] = b"".join(map(self.row, rows))
        if self.process.has_section:
            section_count(self.offsets["section", 0], len(rows))(self.image)
        return bytes(self.image)


def head_of(rng, process):
    """The parts of the head: the table, the section header if there is one, and the notes, in any order."""
    parts = [("table", 0), *(("notes", it) for it in range(len(process.notes)))]
    if process.has_section:
        parts.append(("section", 0))
    rng.shuffle(parts)
    return parts


def memory_of(process):
    """The segments that have bytes, in the order of their addresses."""
    dumped = [it for it, segment in enumerate(process.segments) if segment.content]
    return [("segment", it) for it in sorted(dumped, key=lambda it: process.segments[it].start)]


def orderly(rng, process):
    """An orderly core file, and whether it has bytes of memory."""
    file = File(rng, process)
    memory = memory_of(process)
    for part in head_of(rng, process):
        file.put(part)
    file.align()
    for part in memory:
        file.put(part)
    return file.finished(), bool(memory)


def unorderly(rng, process):
    """A core file that is not orderly, if the process has memory in the core, and whether it is so."""
    head, memory = head_of(rng, process), memory_of(process)
    behind = rng.choice(head)
    ways = [([*head, *memory], 1 + rng.randrange(7)), ([it for it in head if it != behind] + memory + [behind], 0),
            ([*memory, *head], 0)]
    if len(memory) > 1:
        ways.append(([*head, *memory[1:], memory[0]], 0))
        ways.append(([it for it in head if it != behind] + memory[:1] + [behind] + memory[1:], 0))
    order, skew = rng.choice(ways)
    file = File(rng, process)
    for part in order:
        file.put(part, skew)
    return file.finished(), bool(memory)
