"""A core whose words can be read and changed, and the log of a walk."""
import bisect
import struct


class Core:
    def __init__(self, path):
        self.file = open(path, "r+b")
        head = self.file.read(64)
        at, = struct.unpack_from("<Q", head, 32)
        count, = struct.unpack_from("<H", head, 56)
        self.file.seek(at)
        headers = self.file.read(56 * count)
        self.segments = []          # start, bytes in the file, place in the file, flags
        self.notes = []
        for i in range(count):
            kind, flags, place, start, _, size, _, _ = struct.unpack_from("<IIQQQQQQ", headers, 56 * i)
            if kind == 1 and size:
                self.segments.append((start, size, place, flags))
            elif kind == 4:
                self.notes.append((place, size))
        self.segments.sort()
        self.starts = [segment[0] for segment in self.segments]

    def place(self, address):
        """Where in the file the word is, or None."""
        i = bisect.bisect_right(self.starts, address) - 1
        if i < 0 or address + 8 > self.segments[i][0] + self.segments[i][1]:
            return None
        return self.segments[i][2] + address - self.segments[i][0]

    def words(self, address, count):
        """As many words from there on as the core has in a row."""
        place = self.place(address)
        if place is None:
            return []
        segment = self.segments[bisect.bisect_right(self.starts, address) - 1]
        count = min(count, (segment[0] + segment[1] - address) // 8)
        self.file.seek(place)
        return list(struct.unpack("<%dQ" % count, self.file.read(8 * count)))

    def word(self, address):
        return (self.words(address, 1) or [0])[0]

    def put(self, address, value):
        self.file.seek(self.place(address))
        self.file.write(struct.pack("<Q", value))
        self.file.flush()

    def writable(self):
        return [(start, size) for start, size, _, flags in self.segments if flags & 2]

    def each_note(self):
        """The kind of each note, and what it has."""
        for place, size in self.notes:
            self.file.seek(place)
            notes = self.file.read(size)
            at = 0
            while at + 12 <= len(notes):
                name, length, kind = struct.unpack_from("<III", notes, at)
                at += 12 + (name + 3) // 4 * 4
                yield kind, notes[at:at + length]
                at += (length + 3) // 4 * 4


def read_log(text):
    """The blocks, by start and size; what is not in use, joined; and the anchor of the heap."""
    blocks, unused, anchor = set(), [], None
    for line in text.split(b"\n"):
        if line[:1] == b"@":
            start, size = line.rsplit(b"+ ", 1)[1].split()
            blocks.add((int(start, 16), int(size, 16)))
        elif line[:2] == b"+ ":
            start, size = (int(word, 16) for word in line[2:].split())
            if unused and unused[-1][1] == start:
                unused[-1][1] += size
            else:
                unused.append([start, start + size])
        elif line.startswith(b"= leak_walk heap "):
            anchor = int(line.split()[3], 16)
    return blocks, sorted(unused), anchor


def lies_in(inner, outer):
    """Whether each of the stretches lies in one of the others."""
    starts = [start for start, _ in outer]
    for start, end in inner:
        i = bisect.bisect_right(starts, start) - 1
        if i < 0 or end > outer[i][1]:
            return False
    return True
