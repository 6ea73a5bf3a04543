"""lines_hostile.py doubling N: assembly of a function whose mangled name has N types, each of the one before twice.
lines_hostile.py around N: of N functions that all begin at one place and have all of it. lines_hostile.py suffixes N
LENGTH FILE: an ELF file of N functions around one place, each of whose names is another end of one text of this
length."""
import struct
import sys

DIGITS = "0123456789ABCDEFGHIJKLMNOPQRSTUVWXYZ"


def number(value):
    """The number of a substitution (Itanium C++ ABI, seq-id)."""
    return (number(value // 36) if value >= 36 else "") + DIGITS[value % 36]


def doubling(count):
    """The name, and its function."""
    name = "_Z1f1AIiiE" + "".join(f"S_IS{number(it)}_S{number(it)}_E" for it in range(count))
    return [f".globl {name}", f".type {name},@function", f"{name}: nop", "nop", f".size {name},.-{name}"]


def around(count):
    """The functions."""
    names = ["first"] + [f"f{it}" for it in range(count)]
    return [line for name in names for line in (f".globl {name}", f".type {name},@function",
                                                f"{name}:")] + [".skip 65536,0x90"] + [
        f".size {name},65536" for name in names]


def suffixes(count, length):
    """The file (gABI): its header, a segment of all of it, names, symbols, and sections."""
    names, at = b"\0" + b"f" * length + b"\0", 64 + 56
    symbols = bytes(24) + b"".join(struct.pack("<IBBHQQ", 1 + it % (length // 2), 0x12, 0, 1, 0, at)
                                   for it in range(count))
    section_names = b"\0.text\0.symtab\0.strtab\0.shstrtab\0"
    bodies = [(names, 15, 3, 0, 0), (symbols, 7, 2, 2, 24), (section_names, 23, 3, 0, 0)]
    sections, content = [bytes(64), struct.pack("<IIQQQQIIQQ", 1, 1, 6, 0, 0, at, 0, 0, 1, 0)], b""
    for body, name, kind, link, entry in bodies:
        place = at + len(content)
        sections.append(struct.pack("<IIQQQQIIQQ", name, kind, 0, 0, place, len(body), link, int(kind == 2), 8, entry))
        content += body + bytes(-len(body) % 8)
    end = at + len(content)
    head = struct.pack("<16sHHIQQQIHHHHHH", b"\x7fELF\2\1\1", 3, 62, 1, 0, 64, end, 0, 64, 56, 1, 64, len(sections), 4)
    return head + struct.pack("<IIQQQQQQ", 1, 5, 0, 0, 0, end, end, 4096) + content + b"".join(sections)


if sys.argv[1] == "suffixes":
    with open(sys.argv[4], "wb") as output:
        output.write(suffixes(int(sys.argv[2]), int(sys.argv[3])))
else:
    print("\n".join((doubling if sys.argv[1] == "doubling" else around)(int(sys.argv[2]))))
