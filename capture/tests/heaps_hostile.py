"""heaps_hostile.py KIND CORE LOG HOSTILE PARTS PLACES: writes of a core of an allocator at rest one that claims far more
memory than it has: as many segments more, or leaves of the map of pages, of which it has the records alone; or, of
jemalloc, as many threads that are inside it and have one stack. Of mimalloc each of the 511 pages of a segment says that it has so many blocks of 8 bytes, all in use; the heap and its
thread count them, so that everything fits. Of tcmalloc the class of 8 bytes has spans of 256 pages."""
import struct
import sys

from heaps_core import Core, read_log

FREE_FROM, SEGMENT, SLICE, FIRST, PAGES = 0x200000000000, 32 << 20, 64 << 10, 384, 511
LEAF, SPAN_PAGES, SPAN_BYTES, IN_USE = 1 << 18, 256, 48, 0
kind, path, log, hostile = sys.argv[1:5]
count, places = int(sys.argv[5]), int(sys.argv[6])
core = Core(path)
with open(log, "rb") as file:
    anchor = read_log(file.read())[2]


def some_segment():
    """One of mimalloc whose first page is of a heap."""
    return next(at for start, size in core.writable() for at in range(-(-start // SEGMENT) * SEGMENT, start + size - 512, SEGMENT)
                if core.word(at + 264) == 1 and core.word(at + 232) == 1 and core.word(at + 264 + 80 + 48))


def of_mimalloc():
    """Where each new part begins, how much memory it claims, and its records."""
    model = some_segment()
    heap = core.word(model + 264 + 80 + 48)
    data = core.word(heap)
    core.put(heap + 3024, core.word(heap + 3024) + count * PAGES)
    core.put(data + 896, core.word(data + 896) + count)
    for i in range(count):
        start = FREE_FROM + SEGMENT * i
        record = bytearray(0xb000)
        record[:264] = b"".join(struct.pack("<Q", word) for word in core.words(model, 33))
        struct.pack_into("<QQQQQQQQ", record, 208, PAGES, start ^ core.word(model + 216) ^ model, 512, 1, 0, 512, core.word(model + 256), 1)
        for page in range(264 + 80, 264 + 80 * 512, 80):
            struct.pack_into("<IIHHHHQIIQQQ", record, page, 1, 0, 1, places, (SLICE - FIRST) // 8, 0, 0, places, 8, 0, 0, heap)
        yield start, SEGMENT, bytes(record)


def table_of_sizes():
    """tcmalloc's sizes of classes, of 4 bytes each: 0, 8, 16 and more."""
    for start, size in core.writable():
        words = core.words(start, size // 8)
        for i in range(len(words) - 1):
            following = words[i + 1] & 0xffffffff
            if words[i] == 8 << 32 and following == 16:
                return start + 8 * i
            if words[i] == 16 << 32 | 8 and following > 16:
                return start + 8 * i - 4


def of_tcmalloc():
    """The same. The map leads to a leaf for each part, and all its pages to spans behind it."""
    sizes = table_of_sizes()
    core.put((sizes + 4 * 128 + 7 & -8) + 8, SPAN_PAGES)
    free = [key for key in range(1, 1 << 17) if not core.word(anchor + 8 * key)][:count]
    for i, key in enumerate(free):
        start = FREE_FROM + (8 << 20) * i
        spans = range(start + 8 * LEAF, start + 8 * LEAF + SPAN_BYTES * (LEAF // SPAN_PAGES), SPAN_BYTES)
        core.put(anchor + 8 * key, start)
        leaf = b"".join(struct.pack("<Q", span) * SPAN_PAGES for span in spans)
        records = b"".join(struct.pack("<6Q", (key << 18) + SPAN_PAGES * k, SPAN_PAGES, 0, 0, 0, 1 << 16 | IN_USE << 24) for k in range(len(spans)))
        yield start, 4 << 20, leaf + records


def of_jemalloc():
    """Notes of threads."""
    files = next(note for number, note in core.each_note() if number == 0x46494c45)
    mapped, = struct.unpack_from("<Q", files)
    names = files[16 + 24 * mapped:].split(b"\0")
    code = next(struct.unpack_from("<Q", files, 16 + 24 * i)[0] for i in range(mapped) if b"libjemalloc" in names[i])
    thread = bytearray(next(note for number, note in core.each_note() if number == 1))
    struct.pack_into("<qQ", thread, 112 + 8 * 15, -1, code + 4096)      # in no system call
    yield 0, 0, (struct.pack("<III8s", 5, len(thread), 1, b"CORE") + thread) * count


LOAD, NOTE = 1, 4
parts = list({"mimalloc": of_mimalloc, "tcmalloc": of_tcmalloc, "jemalloc": of_jemalloc}[kind]())
core.file.seek(0)
head = bytearray(core.file.read(64))
old, = struct.unpack_from("<H", head, 56)
core.file.seek(struct.unpack_from("<Q", head, 32)[0])
headers = core.file.read(56 * old)
end = core.file.seek(0, 2) + 4095 & -4096
with open(hostile, "wb") as file:
    core.file.seek(0)
    file.write(core.file.read())
    for start, claimed, records in parts:
        file.seek(end)
        file.write(records)
        headers += struct.pack("<IIQQQQQQ", LOAD if start else NOTE, 6, end, start, 0, len(records), claimed, 4096 if start else 4)
        end += len(records) + 4095 & -4096
    struct.pack_into("<Q", head, 32, end)
    struct.pack_into("<H", head, 56, len(headers) // 56)
    file.seek(end)
    file.write(headers)
    file.seek(0)
    file.write(head)
