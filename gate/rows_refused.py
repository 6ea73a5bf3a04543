"""Cores, notes and logs that are refused: the first reason by the order, with the input's number, and no report."""

from case import one, refused
from cores import (ONE_BLOCK, at, core, core_of_three, field, first, header, little, notes, other_note,
                   section_count,
                   vectors)
from texts import report

LINE = "one core.k trace.log"
MISSING = "section header 0 is missing or cut off"
MAGIC = at(0, b"\0")
BAD = "+ 0x10100\n"


def of_core(name, image, text):
    """A core that is refused with a good log."""
    return refused(f"core: {name}", "the first reason by the order", LINE, {"core.k": image, "trace.log": ONE_BLOCK},
                   f"input 1: core: {text}")


def of_file_headers():
    """Reasons of the file header, in their order."""
    rows = [
        ("no byte", core(first(0)), "shorter than an ELF header"),
        ("63 bytes", core(first(63)), "shorter than an ELF header"),
        ("another first byte", core(MAGIC), "not an ELF file"),
        ("another fourth byte", core(at(3, b"G")), "not an ELF file"),
        ("32 bits", core(at(4, b"\1")), "not a 64-bit file"),
        ("big-endian", core(at(5, b"\2")), "not little-endian"),
        ("version 0", core(at(6, b"\0")), "unknown ELF version"),
        ("an executable", core(field(16, 2, 2)), "not a core file"),
        ("of an i386", core(field(18, 3, 2)), "not an x86-64 core"),
        ("headers of 32 bytes", core(field(54, 32, 2)), "program header size is not 56"),
        ("no section header", core(field(56, 0xFFFF, 2)), MISSING),
        ("a section header without its last byte", core(field(40, 8129, 8), field(56, 0xFFFF, 2)), MISSING),
        ("a section header that wraps", core(field(40, (1 << 64) - 64, 8), field(56, 0xFFFF, 2)), MISSING),
        ("200 headers", core(field(56, 200, 2)), "program headers are cut off"),
        ("headers that wrap", core(field(32, (1 << 64) - 56, 8)), "program headers are cut off"),
        ("200 headers by a section", core(section_count(600, 200)), "program headers are cut off"),
        ("4,000,000,000 headers", core(section_count(600, 4_000_000_000)), "program headers are cut off"),
        ("64 bytes", core(first(64)), "program headers are cut off"),
        ("175 bytes", core(first(175)), "program headers are cut off"),
        ("32 bits and big-endian", core(at(4, b"\1"), at(5, b"\2")), "not a 64-bit file"),
        ("another first byte and an executable", core(MAGIC, field(16, 2, 2)), "not an ELF file"),
    ]
    return [of_core(*row) for row in rows]


def of_program_headers():
    """Reasons of a program header, with its number from 0."""
    cut = "contents are cut off"
    over = core_of_three(header(1, 6, 4096, 0x10800, 0, 0x1000))
    past = core_of_three(header(1, 6, 8185, 0x11000, 8, 0x1000))
    rows = [
        ("176 bytes", core(first(176)), f"header 0: {cut}"),
        ("531 bytes", core(first(531)), f"header 0: {cut}"),
        ("532 bytes", core(first(532)), f"header 1: {cut}"),
        ("without the last byte", core(first(8191)), f"header 1: {cut}"),
        ("notes at 8000", core(field(72, 8000, 8)), f"header 0: {cut}"),
        ("a third segment cut", past, f"header 2: {cut}"),
        ("half in memory", core(field(160, 0x800, 8)), "header 1: file size is larger than memory size"),
        ("an end of 2^64", core(field(136, 0xFFFFFFFFFFFFF000, 8)), "header 1: addresses wrap"),
        ("past the last address", core(field(136, 0xFFFFFFFFFFFFF800, 8)), "header 1: addresses wrap"),
        ("two at one address", over, "header 2: overlaps an earlier segment"),
        ("cut, and half in memory", core(first(8191), field(160, 0x800, 8)), f"header 1: {cut}"),
        ("notes at 8000, and half in memory", core(field(72, 8000, 8), field(160, 0x800, 8)), f"header 0: {cut}"),
    ]
    return [of_core(*row) for row in rows]


def of_notes():
    """Reasons of the notes, with the offset in the file of the entry's first byte."""
    linux = at(176, little(6, 4) + little(336, 4) + little(1, 4) + b"LINUX\0\0\0")
    rows = [
        ("300 bytes", core(notes(300)), "note at 176 is cut off"),
        ("355 bytes", core(notes(355)), "note at 176 is cut off"),
        ("a byte", core(notes(1)), "note at 176 is cut off"),
        ("4 bytes after the entry", core(notes(360)), "note at 532 is cut off"),
        ("a name past the end", core(at(176, little(0xFFFFFFFF, 4))), "note at 176 is cut off"),
        ("a status of 332 bytes", core(field(180, 332, 4), notes(352)), "thread status at 176 has a wrong size"),
        ("another type", core(other_note()), "no thread status"),
        ("another name", core(linux), "no thread status"),
        ("no entry", core(notes(0)), "no thread status"),
        ("no part", core(field(64, 0, 4)), "no thread status"),
        ("no header", core(field(56, 0, 2)), "no thread status"),
        ("no header by a section", core(section_count(8128, 0)), "no thread status"),
        ("a short vector entry", core(vectors(), notes(884), field(536, 508, 4)), "vector registers at 532 have a wrong size"),
        ("vectors without a status", core(vectors(), other_note()), "no thread status"),
        ("a status as a vector entry", core(field(184, 2, 4)), "vector registers at 176 have a wrong size"),
    ]
    return [refused(f"notes: {name}", "the first entry at fault, or no status in the end", LINE,
                    {"core.k": image, "trace.log": ONE_BLOCK},
                    f"input 1: notes: {text}") for name, image, text in rows]


def of_lines():
    """Lines that mtrace does not write: to skip one could invent leaks."""
    rows = [
        ("no size", "+ 0x10100"), ("a size without 0x", "+ 0x10100 20"), ("two spaces", "+  0x10100 0x20"),
        ("0X", "+ 0X10100 0x20"),
        ("17 digits", "+ 0x10000000000000000 0x1"), ("a space at the end", "- 0x10100 "), ("another sign", "* 0x10100"),
        ("no digit", "- 0x"), ("upper case", "- 0xABC"), ("a size after a free", "- 0x10100 0x20"), ("no address", "+"),
        ("a caller alone", "@ ./a.out:[0x401136]"), ("an empty caller", "@  + 0x10100 0x20"),
        ("a carriage return", "+ 0x10100 0x20\r"),
        ("a space at the start", " + 0x10100 0x20"), ("a NUL", "+ 0x10100 0x20\0"), ("text", "Memory not freed:"),
        ("a failed realloc without a size", "! 0x10100"), ("a size of (nil)", "+ 0x10100 (nil)"),
    ]
    return [refused(f"log: {name}", "no line of the grammar", LINE,
                    {"core.k": core(), "trace.log": f"{ONE_BLOCK}{line}\n{ONE_BLOCK}"},
                    "input 1: log: line 2 is not an mtrace line") for name, line in rows]


def of_logs():
    """The first faulty line is told, counted from 1, remarks and empty lines too."""
    high = "+ 0xfffffffffffffff0 0x10\n"
    past = "block ends past the address space"
    rows = [
        ("a block past the top", high, f"line 1: {past}"),
        ("a moved block past the top", "= Start\n\n> 0xffffffffffffffff 0x1\n", f"line 3: {past}"),
        ("two faults, a line first", f"+ 0x10100 0x20\n- 0x10100 \n{high}", "line 2 is not an mtrace line"),
        ("two faults, a block first", f"{high}nonsense\n", f"line 1: {past}"),
        ("a bad line 1000", "= \n" * 999 + BAD, "line 1000 is not an mtrace line"),
    ]
    found = [refused(f"log: {name}", "the first faulty line", LINE, {"core.k": core(), "trace.log": log},
                     f"input 1: log: {text}")
             for name, log, text in rows]
    top = report((1, 0), (0, 0), (1, 0), 1, "caller 1 0 1 ?", "leak 0xffffffffffffffff 0 1 head ?")
    return [*found,
            one("an empty block at the last address", "its end is that address", core(), "+ 0xffffffffffffffff 0\n", top)]


def of_order():
    """The core's fault is told before its notes', and that before its log's."""
    rows = [
        ("core, notes and log", core(MAGIC, other_note()), "core: not an ELF file"),
        ("notes and log", core(other_note()), "notes: no thread status"),
        ("log", core(), "log: line 1 is not an mtrace line"),
    ]
    return [refused(f"order: {name}", "core, notes, log", LINE, {"core.k": image, "trace.log": BAD},
                    f"input 1: {text}") for name, image, text in rows]


def cases():
    """All refusals of one core and its log."""
    tables = (of_file_headers, of_program_headers, of_notes, of_lines, of_logs, of_order)
    return [case for table in tables for case in table()]
