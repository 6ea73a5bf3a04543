"""An ELF file's build-id, and sections that tell where a stripped file's symbols are. What is damaged tells nothing.

Rules: gABI, Program Header, Section Header, Note Section; gdb, Separate Debug Files and MiniDebugInfo. What is read of
a file has limits, since whoever made it may have made it to harm.
"""
import os
import struct
from typing import NamedTuple

HEADER, SECTION, SEGMENT = struct.Struct("<16sHHIQQQIHHHHHH"), struct.Struct("<IIQQQQIIQQ"), struct.Struct("<IIQQQQQQ")
CLASS_64_LITTLE = b"\x7fELF\x02\x01"
NOBITS, LOAD, NOTES, BUILD_ID_NOTE = 8, 1, 4, 3
LARGEST = 1 << 26  # bytes of one section that are read
MOST_SECTIONS, MOST_NAMES, LONGEST_NAME, MOST_HEADERS, MOST_NOTES = 1 << 16, 1 << 22, 64, 64, 1 << 16


class Section(NamedTuple):
    """Where the bytes of a section are in the file, and of which type it is."""
    name: int
    kind: int
    offset: int
    size: int
    link: int


def is_elf(file):
    """Whether it begins as an ELF file of 64 bits does."""
    try:
        return file.read(0, len(CLASS_64_LITTLE)) == CLASS_64_LITTLE
    except OSError:
        return False


def header_of(file):
    """The fields of the file's header."""
    header = HEADER.unpack(file.read(0, HEADER.size))
    if not header[0].startswith(CLASS_64_LITTLE):
        raise ValueError("not an ELF file")
    return header


def section_of(fields):
    """The section with these fields."""
    name, kind, _, _, offset, size, link, _, _, _ = fields
    return Section(name, kind, offset, size, link)


def read_headers(file):
    """The sections, and the number of the one with their names. Where there are too many for the header, section 0 has
    both."""
    header = header_of(file)
    place, step, count, names = header[6], header[11], header[12], header[13]
    if place == 0 or step != SECTION.size:
        return [], 0
    first = section_of(SECTION.unpack(file.read(place, SECTION.size)))
    count, names = count or first.size, first.link if names == 0xFFFF else names
    if count > MOST_SECTIONS:
        return [], 0
    return [section_of(fields) for fields in SECTION.iter_unpack(exactly(file, place, count * step))], names


def exactly(file, place, count):
    """So many bytes of the file, which must have them."""
    read = file.read(place, count)
    if len(read) != count:
        raise ValueError("the file is cut off")
    return read


def contents(file, section, most=LARGEST):
    """The bytes of a section."""
    return b"" if section.kind == NOBITS or section.size > most else file.read(section.offset, section.size)


def read_sections(file, wanted):
    """By name, the bytes of those sections of the file that are wanted and there."""
    found = {}
    try:
        sections, names = read_headers(file)
        text = contents(file, sections[names], MOST_NAMES) if names < len(sections) else b""
        for section in sections:
            name = text[section.name:section.name + LONGEST_NAME].split(b"\0", 1)[0].decode("utf-8", "replace")
            if name in wanted and name not in found:
                found[name] = contents(file, section)
    except (OSError, ValueError, OverflowError, struct.error):
        return {}
    return found


def build_id(note):
    """The build-id of a section of notes, in hexadecimal, or "" where there is none."""
    place = 0
    while place + 12 <= len(note):
        name_size, size, kind = struct.unpack_from("<III", note, place)
        name, start = place + 12, place + 12 + (name_size + 3 & ~3)
        if kind == BUILD_ID_NOTE and note[name:name + name_size] == b"GNU\0" and start + size <= len(note):
            return note[start:start + size].hex()
        place = start + (size + 3 & ~3)
    return ""


def program_headers(file):
    """The type, the offset, the size and the address of each segment."""
    try:
        header = header_of(file)
        place, step, count = header[5], header[9], header[10]
        fields = SEGMENT.iter_unpack(exactly(file, place, count * step)) if step == SEGMENT.size else ()
        return [(it[0], it[2], it[5], it[3]) for it in fields]
    except (OSError, ValueError, OverflowError, struct.error):
        return []


def segments(file):
    """Where the file's bytes are in memory: offset, size and address of each segment."""
    return [it[1:] for it in program_headers(file) if it[0] == LOAD]


def loaded_build_id(file):
    """The build-id in the notes that a process has of the file, or "" where there is none."""
    try:
        notes = [file.read(offset, size) for kind, offset, size, _ in program_headers(file)[:MOST_HEADERS]
                 if kind == NOTES and size <= MOST_NOTES]
    except (OSError, OverflowError):
        return ""
    return next((identity for identity in map(build_id, notes) if identity), "")


def debug_link(section):
    """The name of a debug file and the CRC-32 of its bytes, or None. A name with a slash in it is none: it is sought in
    set folders."""
    name = section.split(b"\0", 1)[0]
    place = len(name) + 4 & ~3
    if not name or b"/" in name or place + 4 > len(section):
        return None
    return os.fsdecode(name), struct.unpack_from("<I", section, place)[0]
