"""Notes of a core by name and type, and who the process was (gABI, Note Section; Linux, struct elf_prpsinfo)."""
import struct
from itertools import islice

PT_NOTE, FILE_HEAD, HEADER = 4, 64, struct.Struct("<IIQQQQQQ")
NOTE_HEAD, MOST_NOTES = struct.Struct("<III"), 1 << 20
NT_PRPSINFO, PSINFO_SIZE, PID_AT, NAME_AT, NAME_SIZE = 3, 136, 24, 40, 16


def take(file, at, size):
    """The bytes there, or None where the file ends before."""
    file.seek(at)
    found = file.read(size)
    return found if len(found) == size else None


def headers_of(file):
    """Place and size of each part with notes."""
    head = take(file, 0, FILE_HEAD)
    if not head or head[:6] != b"\x7fELF\x02\x01":
        return
    first, = struct.unpack_from("<Q", head, 32)
    count, = struct.unpack_from("<H", head, 56)
    for number in range(count):
        header = take(file, first + number * HEADER.size, HEADER.size)
        if not header:
            return
        kind, _, at, _, _, size, _, _ = HEADER.unpack(header)
        if kind == PT_NOTE:
            yield at, size


def padded(size):
    """The size up to a multiple of four."""
    return size + 3 & ~3


def notes_of(file):
    """Name size, type, and place and size of what follows the head, of each note of the core."""
    for at, size in headers_of(file):
        end = at + size
        while at + NOTE_HEAD.size <= end and (head := take(file, at, NOTE_HEAD.size)):
            name_size, size, kind = NOTE_HEAD.unpack(head)
            at += NOTE_HEAD.size
            yield name_size, kind, at, size
            at += padded(name_size) + padded(size)


def find(file, name, kind, most):
    """The descriptor of the first note with this name and type, if it has at most so many bytes; or b"". Of a core that
    has more notes than any process the first ones are read."""
    for name_size, other, at, size in islice(notes_of(file), MOST_NOTES):
        if (name_size, other) == (len(name), kind) and take(file, at, name_size) == name:
            return (take(file, at + padded(name_size), size) if size <= most else None) or b""
    return b""


def process_of(path):
    """The id and the name of the core's process, or None and "" where it does not tell."""
    with open(path, "rb") as file:
        note = find(file, b"CORE\0", NT_PRPSINFO, PSINFO_SIZE)
    if len(note) != PSINFO_SIZE:
        return None, ""
    name = note[NAME_AT:NAME_AT + NAME_SIZE].split(b"\0")[0]
    return struct.unpack_from("<i", note, PID_AT)[0], name.decode("utf-8", "surrogateescape")
