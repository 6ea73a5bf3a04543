"""kernel_words.py CORE: how many threads were not asked for their alternate signal stack, then a line
`KIND OF 0xVALUE SIZE` for each word of the note LEAKFIND, if the segment that it names has the same words in the same
order."""
import struct
import sys

NOTE, WORD = struct.Struct("<III"), struct.Struct("<IiQQ")


def headers(core):
    """The program headers: type, flags, place, address and size of each."""
    first, = struct.unpack_from("<Q", core, 32)
    count, = struct.unpack_from("<H", core, 56)
    for number in range(count):
        yield struct.unpack_from("<IIQQQQ", core, first + 56 * number)


def note_of(core):
    """The descriptor of the note."""
    for kind, _, at, _, _, size in headers(core):
        end = at + size
        while kind == 4 and at < end:
            name_size, size, _ = NOTE.unpack_from(core, at)
            name, at = core[at + 12:at + 11 + name_size], at + 12 + (name_size + 3 & ~3)
            if name == b"LEAKFIND":
                return core[at:at + size]
            at += size + 3 & ~3
    raise SystemExit("no note LEAKFIND")


def main():
    """Prints the words."""
    with open(sys.argv[1], "rb") as file:
        core = file.read()
    note = note_of(core)
    address, unasked, _ = struct.unpack_from("<3Q", note)
    words = [WORD.unpack_from(note, at) for at in range(24, len(note), WORD.size)]
    values = struct.pack(f"<{len(words)}Q", *(word[2] for word in words))
    found = [core[at:at + len(values)] for kind, flags, at, start, _, _ in headers(core) if kind == 1 and flags == 6 and
             start == address]
    if found != ([values] if words else []):
        raise SystemExit("the segment has other words")
    print(unasked)
    for kind, of, value, size in words:
        print(kind, of, hex(value), size)


main()
