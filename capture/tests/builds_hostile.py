"""builds_hostile.py CORE OUT COUNT [OFFSET]: the core with so many more mapped files, which all begin with one page of
headers and of notes. Or the notes are said to be at another offset, which the core does not have."""
import struct
import sys

HEADER, SEGMENT, PAGE = struct.Struct("<16sHHIQQQIHHHHHH"), struct.Struct("<IIQQQQQQ"), 4096
PLACE = 0x600000000000  # where no mapping of the core is
MOST, HALF = (PAGE // 2 - HEADER.size) // SEGMENT.size, PAGE // 2


def page():
    """The first page of the files: half are headers, each of which says that the other half is notes, the shortest that
    there are."""
    header = HEADER.pack(b"\x7fELF\x02\x01\x01", 3, 62, 1, 0, HEADER.size, 0, 0, HEADER.size, SEGMENT.size, MOST, 0, 0,
                         0)
    segments = SEGMENT.pack(4, 4, int(sys.argv[4]) if len(sys.argv) > 4 else HALF, 0, 0, HALF, HALF, 4) * MOST
    return (header + segments).ljust(PAGE, b"\0")


def files(count):
    """A note of so many files at the page."""
    parts = struct.pack("<QQQ", PLACE, PLACE + PAGE, 0) * count
    content = struct.pack("<QQ", count, PAGE) + parts + b"".join(b"%d\0" % number for number in range(count))
    return struct.pack("<III", 5, len(content), 0x46494C45) + b"CORE\0\0\0\0" + content


core = open(sys.argv[1], "rb").read()
fields = list(HEADER.unpack_from(core))
place, count = fields[5], fields[10]
segments = core[place:place + count * SEGMENT.size]
note = files(int(sys.argv[3]))
at = len(core) + -len(core) % PAGE
segments += SEGMENT.pack(1, 4, at, PLACE, 0, PAGE, PAGE, PAGE) + SEGMENT.pack(4, 4, at + PAGE, 0, 0, len(note),
                                                                              len(note), 4)
fields[5], fields[10] = at + PAGE + len(note), count + 2
with open(sys.argv[2], "wb") as out:
    out.write(HEADER.pack(*fields) + core[HEADER.size:].ljust(at - HEADER.size, b"\0") + page() + note + segments)
