"""heaps_wide.py CORE LOG WIDE: writes of a core of jemalloc one as if it had been built for addresses of 57 bits:
its tree of extents has three levels of 15 bits in place of two of 18, and a page has two words in a leaf
(include/jemalloc/internal/rtree.h). The nodes and leaves lie where the leaves were."""
import struct
import sys

from heaps_core import Core, read_log

PAGE, LEAF, AREA, CLEARED = 4096, 512 << 10, 2 << 20, 232 << 48
path, log, wide = sys.argv[1:4]
core = Core(path)
with open(log, "rb") as file:
    text = file.read()
root = read_log(text)[2]
is_old = b"allocator jemalloc 5.2" in text


def entry_of(word):
    """The record's address, and the class and flags: of 5.2 they have four bytes, and one."""
    flags = 1 if is_old else 127
    rest = word >> 48 | (word & 1) << 32 if is_old else word >> 48 << 5 | word & 31
    return word & (1 << 48) - 1 - flags, rest



def area_of(start, size):
    """The bytes of that memory; what the core lacks is 0."""
    area = bytearray(size)
    for first, length, place, _ in core.segments:
        begin, end = max(first, start), min(first + length, start + size)
        if begin < end:
            core.file.seek(place + begin - first)
            area[begin - start:end - start] = core.file.read(end - begin)
    return area


def words_of(area):
    return [(i, value) for i, (value,) in enumerate(struct.iter_unpack("<Q", area)) if value]


root_area = area_of(root, AREA)
old = {key: leaf for key, leaf in words_of(root_area)}
pages = {key << 18 | i: word for key, leaf in old.items() for i, word in words_of(area_of(leaf, AREA))}
areas = {leaf: bytearray(AREA) for leaf in old.values()}
room = [leaf + LEAF * i for leaf in areas for i in range(4)]
nodes, leaves = {}, {}
first = room.pop(0)
for page in pages:
    if page >> 30 not in nodes:
        nodes[page >> 30] = first + (LEAF // 2) * len(nodes)    # two of them have room
    if page >> 15 not in leaves:
        leaves[page >> 15] = room.pop(0)


def put(address, value):
    """A word of the new nodes and leaves."""
    start = next(start for start in areas if start <= address < start + AREA)
    struct.pack_into("<Q", areas[start], address - start, value)


root_at, root_end = root & -PAGE, (root + AREA + PAGE - 1) & -PAGE
new_root = area_of(root_at, root_end - root_at)
for key in old:
    struct.pack_into("<Q", new_root, root - root_at + 8 * key, 0)
for key, node in nodes.items():
    struct.pack_into("<Q", new_root, root - root_at + 8 * key, node)
for key, leaf in leaves.items():
    put(nodes[key >> 15] + 8 * (key & 0x7fff), leaf)
for page, word in pages.items():
    put(leaves[page >> 15] + 16 * (page & 0x7fff), entry_of(word)[0])
    put(leaves[page >> 15] + 16 * (page & 0x7fff) + 8, entry_of(word)[1])

new = [(start & -PAGE, area_of(start & -PAGE, start % PAGE) + bytes(area) + area_of(start + AREA, -start % PAGE))
       for start, area in areas.items()]
new.append((root_at, bytes(new_root)))
loads = [(start, 6, bytes(data)) for start, data in new]        # readable and writable
for start, size, place, flags in core.segments:
    cuts = sorted((begin, begin + len(data)) for begin, data in new
                  if begin < start + size and start < begin + len(data))
    at = start
    for begin, end in cuts + [(start + size, start + size)]:
        if at < begin:
            loads.append((at, flags, bytes(area_of(at, begin - at))))
        at = max(at, end)
loads.sort()
core.file.seek(0)
head = bytearray(core.file.read(64))
notes = []
for place, size in core.notes:
    core.file.seek(place)
    notes.append(core.file.read(size))
struct.pack_into("<Q", head, 32, 64)
struct.pack_into("<H", head, 56, len(notes) + len(loads))
place = 64 + 56 * (len(notes) + len(loads))
headers, contents = [], []
for kind, start, flags, data in [(4, 0, 4, note) for note in notes] + [(1, *load) for load in loads]:
    headers.append(struct.pack("<IIQQQQQQ", kind, flags, place, start, 0, len(data), len(data) if kind == 1 else 0, 1))
    contents.append(data)
    place += len(data)
with open(wide, "wb") as file:
    file.write(bytes(head) + b"".join(headers) + b"".join(contents))
