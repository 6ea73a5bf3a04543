"""Writes files that say to be a C library, for a process that maps them: lying.py KIND FILE.."""
import struct
import sys

PAGE, AT, CODE, SYMBOLS = 4096, 0x120000000, 0x1000, 0x2000
HASH, DYNAMIC = 0x800, 0x400
GATES = ["malloc", "free", "calloc", "realloc"]
ENTRY = bytes.fromhex("4883ec18 31c0 31d2").ljust(64, b"\x90")     # sub, xor, xor, nop..
ISLAND, STUB, MAGIC = 0x5000, 0x6C00, 0x31656C73696B6C61
JUMP = b"\xe9" + struct.pack("<i", STUB - CODE - 5)
DT_HASH, DT_STRTAB, DT_SYMTAB, DT_STRSZ, DT_GNU_HASH = 4, 5, 6, 10, 0x6FFFFEF5
KINDS = {
    "old": {},
    "elsewhere": {"malloc": 0x110000000 - AT},
    "shared": {"malloc": 0x130000000 - AT},
    "nowhere": {"malloc": 0x7F0000000000},
    "end": {"malloc": 0x5000 - 8},
    "count": {"count": 0xFFFFFFF0},
    "strings": {"string_bytes": 1 << 60},
    "buckets": {"gnu": (0xFFFFFFFF, 1, 0, 0)},
    "bloom": {"gnu": (1, 1, 0xFFFFFFFF, 0)},
    "chain": {"gnu": (1, 1, 0, 0, 1), "hash_at": 0x5000, "room": 0x800000},
    "cut_chain": {"gnu": (1, 1, 0, 0, 1), "hash_at": 0x5000, "room": 0x8000},
    "odd_chain": {"gnu": (1, 1, 0, 0, 1), "hash_at": HASH + 1},
    "headers": {"header_at": 1 << 40},
    "dynamic": {"dynamic_bytes": 1 << 60},
    "tables": {"symbols_at": 0x7F0000000000},
    "into": {"code": (0x800, b"\xe8" + struct.pack("<i", CODE + 4 - (CODE + 0x805)))},
    "back": {"code": (0x40, ENTRY[:8] + b"\xeb\xfa")},
    "back_behind_a_call": {"code": (0x40, ENTRY[:8] + b"\xe8\0\0\0\0\xc3" + b"\x75\xf4")},
    "back_behind_what_is_unknown": {"code": (0x40, ENTRY[:8] + b"\xc5\xf8\x77" + b"\x75\xf7")},
    "unknown": {"code": (0, b"\xcc")},
    "nothing": {"names": []},
    "malloc": {"names": ["malloc"]},
    "much": {"count": 300000, "room": 0x800000},
    "zero_island": {"code": (0, JUMP), "island": b"\0" * 2048, "room": 0x9000},
    "full_island": {"code": (0, JUMP), "island": b"\xff" * 2048, "room": 0x9000},
    "on_island": {"code": (0, JUMP), "island": struct.pack("<Ii", 3, 1) + b"\x41" * 2048, "room": 0x9000},
    "own_island": {"code": (0, JUMP), "island": struct.pack("<Ii", 2, -1) + b"\x00" * 2048, "room": 0x9000},
}


def symbols(names, lies):
    """The symbols, and their names: the first symbol is none."""
    table, text = bytes(24), b"\0"
    for number, name in enumerate(names):
        value = lies.get(name, CODE + 64 * number)
        table += struct.pack("<IBBHQQ", len(text), 0x12, 0, 1, value % 2**64, 64)
        text += name.encode() + b"\0"
    return table, text


def code_of(lies):
    """A page of code, which has a function at each 64 bytes."""
    code = bytearray(ENTRY * (PAGE // 64))
    at, what = lies.get("code", (0, b""))
    code[at:at + len(what)] = what
    return bytes(code)


def content(lies):
    """The file: a page of headers, one of code, one of symbols, and in the end one of their names."""
    table, text = symbols(lies.get("names", GATES), lies)
    count, room = lies.get("count", len(table) // 24), lies.get("room", 0x5000)
    strings_at = room - PAGE
    where = lies.get("hash_at", HASH)
    words = lies.get("gnu", (1, count, 1, 0))
    hash_of = struct.pack(f"<{len(words)}I", *words)
    entries = [(DT_GNU_HASH if "gnu" in lies else DT_HASH, where), (DT_STRTAB, strings_at),
               (DT_STRSZ, lies.get("string_bytes", len(text))), (DT_SYMTAB, lies.get("symbols_at", SYMBOLS)), (0, 0)]
    dynamic = b"".join(struct.pack("<QQ", *entry) for entry in entries)
    at = lies.get("header_at", 64)
    head = struct.pack("<16sHHIQQQIHHHHHH", b"\x7fELF\2\1\1", 3, 62, 1, 0, at, 0, 0, 64, 56, 2, 64, 0, 0)
    head += struct.pack("<IIQQQQQQ", 1, 5, 0, 0, 0, room, room, PAGE)
    head += struct.pack("<IIQQQQQQ", 2, 4, DYNAMIC, DYNAMIC, DYNAMIC, len(dynamic),
                        lies.get("dynamic_bytes", len(dynamic)), 8)
    file = bytearray(room)
    island = struct.pack("<Q", MAGIC) + lies["island"] if "island" in lies else b""
    for at, what in ((0, head), (DYNAMIC, dynamic), (where, hash_of), (CODE, code_of(lies)), (SYMBOLS, table),
                     (strings_at, text), (ISLAND, island)):
        file[at:at + len(what)] = what
    return bytes(file)


for path in sys.argv[2:]:
    with open(path, "wb") as out:
        out.write(content(KINDS[sys.argv[1]]))
