"""Random little processes for passes.py: memory with a heap as glibc's malloc lays it out, threads, and a log.

Words are mostly addresses in blocks and beside them. What a search reads as something else than a pointer is there too:
sizes of chunks, links to free chunks and to the top of the heap, records of stacks.
"""

from dataclasses import dataclass

from cores import fields, little

WRAP = 1 << 64
# Where the memory of a process begins: also at the lowest address and near the highest.
BASES = (0, 0x10000, 0x5555_5555_9000, 0x7FFF_F7A0_0000, WRAP - 0x3000)
TEXTS = ("", "@ a:[0x1] ", "@ b:(f+0x8)[0x2] ", "@ size 24 ")
FLAGS = (6,) * 8 + (7, 4, 4, 0)


@dataclass(frozen=True)
class Segment:
    """Memory from an address on: the bytes that a core has, the size, and the flags of its header."""

    start: int
    content: bytes
    size: int
    flags: int


@dataclass(frozen=True)
class Process:
    """What a core and its log are of.

    `rows` are the headers in their order: each `segment`, `notes` or `other` with its number. `is_sound` says whether
    the headers are accepted, and `notes_are_sound` whether the notes are.
    """

    segments: tuple
    notes: tuple
    rows: tuple
    has_section: bool
    log: str
    asked: int
    is_sound: bool
    notes_are_sound: bool


@dataclass(frozen=True)
class Chunk:
    """A chunk of malloc's: where its header is, its size, the size of its block, and whether this is live."""

    header: int
    size: int
    asked: int
    is_live: bool

    @property
    def start(self):
        """The first address of its block."""
        return self.header + 16


class Memory:
    """Regions of memory, by the address of each a list of bytes."""

    def __init__(self, regions):
        """The memory of these regions."""
        self.regions = regions

    def put(self, address, value):
        """Writes a word, if the memory has all its bytes."""
        for start, content in self.regions.items():
            if start <= address and address + 8 <= start + len(content):
                content[address - start:address - start + 8] = little(value % WRAP)

    def places(self):
        """The address of each word."""
        return [start + at for start, content in self.regions.items() for at in range(0, len(content), 8)]


def some(rng, chance):
    """True, with this chance."""
    return rng.random() < chance


def chunks_in(rng, begin, end):
    """Chunks side by side, of sizes that fit their blocks, or are 16 or 32 bytes more."""
    found, header = [], begin
    while True:
        fit = 16 * rng.choice((2, 2, 2, 3, 3, 4, 5, 8))
        size = fit + rng.choice((0,) * 8 + (16, 32))
        if header + size + 16 > end:
            return found
        asked = rng.randrange(25) if fit == 32 else fit - 8 - rng.randrange(16)
        found.append(Chunk(header, size, asked, some(rng, 0.7)))
        header += size


def word_for(rng, chunks):
    """A word: mostly an address in a block, or beside one, or of the header after it."""
    if not chunks or some(rng, 0.25):
        return rng.choice((0x21, 0x31, rng.getrandbits(16), rng.getrandbits(64)))
    chunk = rng.choice((*chunks, chunks[0], chunks[-1], chunks[-1]))
    end = chunk.start + chunk.asked
    inside = chunk.start + rng.randrange(chunk.asked + 1)
    return rng.choice((chunk.start, inside, end, end, end + 1, chunk.start - 1, chunk.header + chunk.size))


def fill(rng, memory, chunks):
    """Writes words at random, then the sizes of the chunks and of the heap's top, and links to what is free."""
    places, density = memory.places(), rng.choice((0.02, 0.08, 0.2, 0.5))
    for place in places:
        if some(rng, density):
            memory.put(place, word_for(rng, chunks))
    in_use = 1
    for chunk in chunks:
        flags = in_use + rng.choice((0,) * 10 + (4, 2))
        memory.put(chunk.header + 8, chunk.size + flags if some(rng, 0.95) else rng.getrandbits(8))
        in_use = int(chunk.is_live)
    if chunks:
        top = chunks[-1].header + chunks[-1].size
        memory.put(top + 8, -top % 4096 + in_use)
    for before, header in [(it, it.header + it.size) for it in chunks if it.is_live]:
        if some(rng, 0.3):
            place = rng.choice(places)
            memory.put(place, header)
            memory.put(*rng.choice(((header + 24, place - 16), (header + 16, place - 24), (before.start, header))))


def lines_of(rng, chunk):
    """The lines of a block: none, or its allocation, and what gives it back if it is not live."""
    where = rng.choice(TEXTS)
    made = f"{where}{rng.choice('++>')} {chunk.start:#x} {chunk.asked:#x}".replace(" 0x0", " 0")
    if chunk.is_live:
        return [made]
    return rng.choice(([], [made, f"{where}- {chunk.start:#x}"], [made, f"< {chunk.start:#x}"]))


def odd_lines(rng, places):
    """Lines that no allocator would write in this place: blocks anywhere, of any size, and what gives back nothing."""
    place = rng.choice(places) + rng.randrange(8)
    rows = [f"+ {max(place, 1):#x} {rng.choice((1, 7, 8, 40, 200)):#x}", f"+ {max(place, 1):#x} 0", f"- {max(place, 1):#x}",
            "= remark", "", "+ (nil) 0x10", "- (nil)", f"! {max(place, 1):#x} 0x8"]
    return [row for row in rows if some(rng, 0.08)]


def log_of(rng, chunks, places):
    """A log: lines in any order of the blocks, now and then cut off or with a line that is none."""
    parts = [lines_of(rng, chunk) for chunk in chunks] + [[row] for row in odd_lines(rng, places)]
    if some(rng, 0.03):
        parts.append(["+ 0x10"])
    rng.shuffle(parts)
    text = "".join(line + "\n" for part in parts for line in part)
    return text[:-rng.randrange(1, 12)] if some(rng, 0.1) else text


def register_words(rng, chunks, count):
    """Words of registers: mostly 0."""
    return [word_for(rng, chunks) % WRAP if some(rng, 0.04) else 0 for _ in range(count)]


def thread(rng, memory, chunks, stack):
    """The entries of a thread whose stack is the region: its status, and now and then its vector and its state entry."""
    words, last = register_words(rng, chunks, 27), len(memory.regions[stack]) // 8
    words[19], words[15] = stack + 8 * rng.randrange(last), rng.choice((0, WRAP - 1))
    if some(rng, 0.5):
        words[21] = stack + 8 * (last - 2)
        memory.put(words[21], stack)
        memory.put(words[21] + 8, words[21] - stack + 64)
    entries = [fields(b"CORE", 336, 1) + bytes(112) + b"".join(map(little, words)) + bytes(8)]
    if some(rng, 0.15):
        entries.append(fields(b"CORE", 512, 2) + b"".join(map(little, register_words(rng, chunks, 64))))
    if some(rng, 0.15):
        state = register_words(rng, chunks, rng.choice((72, 73, 80)))
        entries.append(fields(b"LINUX", 8 * len(state), 0x202) + b"".join(map(little, state)))
    return entries


def notes_of(rng, memory, chunks, stack):
    """Parts of notes, and whether they are sound: entries of threads, of the vector with AT_RANDOM, and others."""
    entries = [it for _ in range(rng.choice((1, 1, 1, 2, 3))) for it in thread(rng, memory, chunks, stack)]
    if some(rng, 0.3):
        pairs = (3, 64, 25, stack + len(memory.regions[stack]) - 8, 0, 0)
        entries.append(fields(b"CORE", 48, 6) + b"".join(map(little, pairs)))
    if some(rng, 0.3):
        entries.insert(0, fields(b"OTHER", 5, 1) + bytes(8))
    middle, is_sound = rng.choice((0, 1, len(entries))), not some(rng, 0.03)
    parts = [b"".join(part) for part in (entries[:middle], entries[middle:]) if part]
    if not is_sound:
        parts[-1] = parts[-1][:-rng.randrange(9, 100)]
    return tuple(parts), is_sound


def cuts_of(rng, start, length):
    """The ends of pieces of a region: some of them within a word."""
    count = rng.choice((0, 1, 1, 2))
    inner = {start + rng.choice((8 * rng.randrange(1, length // 8), rng.randrange(1, length))) for _ in range(count)}
    return [start, *sorted(inner), start + length]


def segments_of(rng, memory):
    """The regions in pieces. Of some pieces a core lacks the last bytes, or all; some are missing, and some are empty."""
    found = []
    for start, content in memory.regions.items():
        cuts = cuts_of(rng, start, len(content))
        for begin, end in zip(cuts, cuts[1:]):
            kept = end - begin if some(rng, 0.85) else rng.choice((0, rng.randrange(end - begin + 1)))
            if not some(rng, 0.05):
                dumped = bytes(content[begin - start:begin - start + kept])
                found.append(Segment(begin, dumped, end - begin, rng.choice(FLAGS)))
    if some(rng, 0.1):
        found.append(Segment(rng.choice(list(memory.regions)), b"", 0, 6))
    return found


def with_fault(rng, segments):
    """The segments with one that a core may not have: it shares addresses with another, or has more bytes than its size."""
    shared = [it for it in segments if it.size]
    return segments + [rng.choice((*shared[:1], Segment(16, bytes(16), 8, 6)))]


def random_process(rng):
    """A process of three regions: data, heap and a stack, of a few words each."""
    base = rng.choice(BASES)
    sizes = (8 * rng.randrange(4, 20), 8 * rng.randrange(6, 100), 8 * rng.randrange(8, 30))
    heap = base + rng.choice((0x1000, (sizes[0] + 15) // 16 * 16))
    stack = heap + rng.choice((0x1000, (sizes[1] + 15) // 16 * 16))
    memory = Memory({base: bytearray(sizes[0]), heap: bytearray(sizes[1]), stack: bytearray(sizes[2])})
    chunks = chunks_in(rng, heap + 16 * rng.randrange(2), heap + sizes[1])
    fill(rng, memory, chunks)
    notes, notes_are_sound = notes_of(rng, memory, chunks, stack)
    log = log_of(rng, chunks, memory.places())
    segments, is_sound = segments_of(rng, memory), not some(rng, 0.03)
    if not is_sound:
        segments = with_fault(rng, segments)
    rows = [("segment", it) for it in range(len(segments))] + [("notes", it) for it in range(len(notes))]
    rows += [("other", 0)] * rng.randrange(2)
    rng.shuffle(rows)
    asked = rng.choice(chunks).start if chunks else 16
    return Process(tuple(segments), notes, tuple(rows), some(rng, 0.1), log, asked, is_sound, notes_are_sound)
