"""Sample cores and logs for the cases, from named parts. docs/EXAMPLES.md lays the sample core out.

A part is a function that changes the bytes of a core. The later part wins.
"""

import struct

SIZE = 8192          # bytes of the sample core
SEGMENT = 0x1000     # where its segment is in the file
START = 0x10000      # the address of the segment
NOTES = 176          # where its part of notes is
HEADERS = 64         # where its program headers are
ONE_BLOCK = "@ ./a.out:[0x401136] + 0x10100 0x20\n"
TWO_BLOCKS = "+ 0x10100 0x20\n+ 0x10200 0x10\n"


def little(value, size=8):
    """The number in this many bytes, the lowest first."""
    return value.to_bytes(size, "little")


def header(kind, flags, offset, vaddr, filesz, memsz):
    """A program header of 56 bytes."""
    return struct.pack("<IIQQQQQQ", kind, flags, offset, vaddr, 0, filesz, memsz, 4)


def status_entry():
    """The entry of notes of one thread, whose registers are 0."""
    return little(5, 4) + little(336, 4) + little(1, 4) + b"CORE\0\0\0\0" + bytes(336)


def file_header(count):
    """The header of a core with this many program headers."""
    start = b"\x7fELF\x02\x01\x01" + bytes(9) + little(4, 2) + little(62, 2) + little(1, 4)
    return start + bytes(8) + little(HEADERS) + bytes(12) + little(64, 2) + little(56, 2) + little(count, 2) + bytes(6)


def core(*parts):
    """The sample core with the parts set."""
    image = bytearray(SIZE)
    image[0:64] = file_header(2)
    image[64:120] = header(4, 0, NOTES, 0, 356, 0)
    image[120:176] = header(1, 6, SEGMENT, START, SEGMENT, SEGMENT)
    image[NOTES:NOTES + 356] = status_entry()
    return changed(image, parts)


def core_of_three(third, *parts):
    """The sample core with a third program header, before the notes, which are then at 232."""
    image = bytearray(SIZE)
    image[0:64] = file_header(3)
    image[64:120] = header(4, 0, 232, 0, 356, 0)
    image[120:176] = header(1, 6, SEGMENT, START, SEGMENT, SEGMENT)
    image[176:232] = third
    image[232:232 + 356] = status_entry()
    return changed(image, parts)


def changed(image, parts):
    """The bytes after each part."""
    for part in parts:
        part(image)
    return bytes(image)


def at(offset, content):
    """Bytes in the place of others, from the file offset on."""
    def change(image):
        image[offset:offset + len(content)] = content
    return change


def field(offset, value, size):
    """A number of this many bytes at the file offset."""
    return at(offset, little(value, size))


def word(address, value):
    """The word at an address of the segment."""
    return at(address - START + SEGMENT, little(value))


def words(*pairs):
    """Several words of the segment, each an address and a value."""
    def change(image):
        for address, value in pairs:
            word(address, value)(image)
    return change


def raw(address, content):
    """Bytes from an address of the segment on."""
    return at(address - START + SEGMENT, content)


def rbx(value):
    """The register rbx of the thread."""
    return at(348, little(value))


def registers(at=NOTES, **values):
    """Registers of the thread whose entry of notes is at the file offset: rsp, fs_base, orig_rax."""
    places = {"orig_rax": 15, "rsp": 19, "fs_base": 21}
    def change(image):
        for name, value in values.items():
            begin = at + 20 + 112 + 8 * places[name]
            image[begin:begin + 8] = little(value)
    return change


def auxiliary(*pairs, cut=0):
    """An entry of notes with the auxiliary vector (type 6) at 532: pairs of a type and a value, without the last bytes."""
    def change(image):
        content = b"".join(little(number) for pair in pairs for number in pair)
        content = content[:len(content) - cut]
        notes(376 + len(content))(image)
        image[532:552 + len(content)] = fields(b"CORE", len(content), 6) + content
    return change


def read_only():
    """The segment is not writable: its p_flags are 4."""
    return field(124, 4, 4)


def dumped(count):
    """This many bytes of the segment are in the file: its p_filesz."""
    return field(152, count, 8)


def notes(count):
    """The part of notes has this many bytes: its p_filesz."""
    return field(96, count, 8)


def other_note():
    """The entry of notes is of type 6, no thread status."""
    return field(184, 6, 4)


def first(count):
    """Only this many bytes are left of the file."""
    def change(image):
        del image[count:]
    return change


def second_thread(r15):
    """A second thread status at 532, with its first register."""
    def change(image):
        notes(712)(image)
        image[532:532 + 356] = status_entry()
        image[664:672] = little(r15)
    return change


def vectors():
    """A vector entry (type 2, 512 bytes) at 532: its st0 is at 584, its xmm0 at 712, and xmm15 ends at 968."""
    def change(image):
        notes(888)(image)
        image[532:552] = fields(b"CORE", 512, 2)
    return change


def fields(name, size, kind):
    """The fields and the name of an entry of notes. The name has 4 to 7 bytes, a NUL after them and its padding."""
    return little(len(name) + 1, 4) + little(size, 4) + little(kind, 4) + name.ljust(8, b"\0")


def state(size, name=b"LINUX", kind=0x202):
    """A state entry of this many bytes at 532: its descriptor begins at 552."""
    def change(image):
        notes(376 + size)(image)
        image[532:552] = fields(name, size, kind)
    return change


def threads(count, size):
    """`count` threads, each with a status, a vector entry and a state entry of `size` bytes, in a part after the segment."""
    def change(image):
        zeros = status_entry() + fields(b"CORE", 512, 2) + bytes(512) + fields(b"LINUX", size, 0x202) + bytes(size)
        image[72:80] = little(SIZE)
        notes(count * len(zeros))(image)
        image[SIZE:] = count * zeros
    return change


def in_thread(number, size, kind, offset):
    """Where a byte of a descriptor is, with `threads`: of the thread with the number from 1, by the kind of its entry."""
    begins = {"status": 20, "vector": 376, "state": 908}[kind]
    return SIZE + (number - 1) * (908 + size) + begins + offset


def section_count(offset, count):
    """The number of program headers is in section header 0, which begins at the offset."""
    def change(image):
        image[40:48] = little(offset)
        image[56:58] = b"\xff\xff"
        image[offset + 44:offset + 48] = little(count, 4)
    return change


def chain():
    """A core and a log of a hundred blocks of 16 bytes, each except the last holding the start of the next."""
    starts = [0x10200 + 0x20 * i for i in range(100)]
    links = [word(start, start + 0x20) for start in starts[:-1]]
    log = "".join(f"+ {start:#x} 0x10\n" for start in starts)
    return core(word(0x10008, 0x10200), *links), log


def star():
    """A core and a log: one block of 400 bytes leads to 50 of 16, and each of these to one of 8."""
    parts, log = [word(0x10008, 0x10200)], "+ 0x10200 0x190\n"
    for i in range(50):
        near, far = 0x10400 + 0x20 * i, 0x10b00 + 0x10 * i
        parts += [word(0x10200 + 8 * i, near), word(near, far)]
        log += f"+ {near:#x} 0x10\n+ {far:#x} 0x8\n"
    return core(*parts), log
