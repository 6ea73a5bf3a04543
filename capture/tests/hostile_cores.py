"""hostile_cores.py KIND CORE: writes a core, of about 1 MB if nothing else is said, that is made to take time, memory
or log. top: the heap's top chunk says that it has 2^46 bytes. notes: each program header names the same notes.
segments: each names the same memory. threads: threads whose registers have chunks' addresses, arenas, and pages that
look like the begin of a heap. pages: such pages and arenas alone. path: each block is an object of a class in a file
whose path has 400 KB. long: in files whose paths are as long as a path can be. names: a file's path has control
characters. sparse: 64 GiB of zeros, without a block of its disk. far: 4 MiB of blocks whose words lead all over the
heap. headers: an ELF header with 65,535 program headers, which each of the mapped files begins with. small: nothing of
that, for a fuzzer to begin with: blocks, a free chunk in a list, a block with a mapping of its own, two threads, a
file. hostile_cores.py table TABLE CORE: a table of leak_trace of 256 GiB, sparse, and a core of its process.
hostile_cores.py few TABLE CORE: a table of three blocks and a leaf, for a fuzzer too, and a core of its process.
hostile_cores.py paths TABLE CORE: a table whose blocks each have 32 callers in a file with a long path.
hostile_cores.py leaves TABLE CORE: a table that tells of freed memory, of 65 MB that the core lacks, and 1,000 times of
64 KiB that it has."""
import struct
import sys

PT_LOAD, PT_NOTE, NT_PRSTATUS, NT_FILE, PAGE = 1, 4, 1, 0x46494c45, 4096
HEAP, ARENA, FILE, TABLE = 0x555555560000, 0x7f0000000000, 0x7e0000000000, 0x7d0000000000
TO_TOP, BINS, TO_NEXT, TO_SYSTEM_MEM, ARENA_BYTES = 96, 127, 2064, 2088, 2208


def pad(data, unit):
    return data + bytes(-len(data) % unit)


def note(kind, content):
    return struct.pack('<III', 5, len(content), kind) + b'CORE\0\0\0\0' + pad(content, 4)


def status(registers):
    return note(NT_PRSTATUS, bytes(112) + struct.pack('<27Q', *registers) + bytes(8))


def files(parts):
    """NT_FILE: parts as (start, end, path)."""
    places = b''.join(struct.pack('<QQQ', start, end, 0) for start, end, _ in parts)
    return note(NT_FILE, struct.pack('<QQ', len(parts), PAGE) + places + b''.join(path + b'\0' for *_, path in parts))


def core(segments, notes, repeated=(), hole=0):
    """Segments as (address, bytes); `repeated` are further headers, as (type, address) of the first notes or segment.
    The last segment may be a hole of the file, which is to be made so much longer."""
    count = 1 + len(segments) + len(repeated) + (hole > 0)
    at = 64 + 56 * count
    places = [(PT_NOTE, 0, at, len(notes), 0)]
    at += len(notes)
    for address, data in segments:
        at += -at % PAGE
        places.append((PT_LOAD, address, at, len(data), len(data)))
        at += len(data)
    for kind, address in repeated:
        _, _, offset, size, memory = places[0 if kind == PT_NOTE else 1]
        places.append((kind, address, offset, size, memory))
    if hole:
        places.append((PT_LOAD, TABLE, at, hole, hole))
    head = struct.pack('<16sHHIQQQIHHHHHH', b'\x7fELF\2\1\1', 4, 62, 1, 0, 64, 0, 0, 64, 56, count, 64, 0, 0)
    headers = b''.join(struct.pack('<IIQQQQQQ', kind, 6, offset, address, 0, filed, held, PAGE) for kind, address,
                       offset, filed, held in places)
    data = head + headers + notes
    for address, content in segments:
        data = pad(data, PAGE) + content
    return data


def arena(start, top, system_mem, flags=0, following=0):
    """malloc_state of glibc 2.27 and later, with empty bins."""
    data = bytearray(ARENA_BYTES)
    top_at = start + TO_TOP
    struct.pack_into('<II', data, 0, 0, flags)
    struct.pack_into('<Q', data, TO_TOP, top)
    for i in range(BINS):
        struct.pack_into('<QQ', data, TO_TOP + 16 * i + 16, top_at + 16 * i, top_at + 16 * i)
    struct.pack_into('<Q', data, TO_TOP + TO_NEXT, following or start)
    struct.pack_into('<Q', data, TO_TOP + TO_SYSTEM_MEM, system_mem)
    return bytes(data)


def chunks(count, first):
    """Chunks of 32 bytes, all in use, whose blocks begin with this word."""
    return struct.pack('<QQQQ', 0, 0x21, first, 0) * count


def heap_of(count, first, top_size=0x20000):
    """A main heap of so many blocks, and its arena."""
    data = pad(chunks(count, first) + struct.pack('<QQ', 0, top_size | 1), PAGE)
    top = HEAP + 32 * count
    return [(ARENA, pad(arena(ARENA, top, top + top_size - HEAP), PAGE)), (HEAP, data)]


def broken_heaps(arenas, pages, threads):
    """Pages that each look like the begin of a heap, which breaks at its end, and arenas that are to be found
    somewhere."""
    data = bytearray(chunks(pages * PAGE // 32, 0))
    data[-56:-48] = bytes(8)
    top = HEAP + len(data) - 16
    all_arenas = b''.join(arena(ARENA + i * ARENA_BYTES, top, 1 << 40, 2, ARENA) for i in range(arenas))
    statuses = b''.join(status([HEAP + 32 * ((27 * i + k) % (pages * PAGE // 32)) for k in range(26)] + [0x21])
                        for i in range(threads))
    return core([(ARENA, pad(all_arenas, PAGE)), (HEAP, bytes(data))], statuses)


def many_headers():
    """Files that all begin at one place, with the most program headers that an ELF header can count."""
    head = struct.pack('<16sHHIQQQIHHHHHH', b'\x7fELF\2\1\1', 3, 62, 1, 0, 64, 0, 0, 64, 56, 65535, 64, 0, 0)
    data = pad(head + struct.pack('<IIQQQQQQ', 1, 6, 0, 1 << 60, 0, 1, 1, PAGE) * 65535, PAGE)
    parts = [(FILE, FILE + len(data), b'/%x' % i) for i in range(30000)]
    return core(heap_of(1000, FILE + 8) + [(FILE, data)], files(parts))


def small():
    """The third of ten chunks is free, in the list of the arena's first bin."""
    (at, arena_bytes), (heap, data) = heap_of(10, FILE + 64)
    words, free, first = bytearray(data), heap + 64, at + TO_TOP
    struct.pack_into('<QQQQ', words, 64, 0, 0x21, first, first)
    struct.pack_into('<QQ', words, 96, 0x20, 0x20)
    bins = bytearray(arena_bytes)
    struct.pack_into('<QQ', bins, TO_TOP + 16, free, free)
    mapped = struct.pack('<QQ', 0, PAGE | 2) + bytes(PAGE - 16)
    threads = status([heap + 32 * i for i in range(26)] + [0x21]) + status([0] * 27)
    return core([(at, bytes(bins)), (heap, bytes(words)), (TABLE, mapped)],
                threads + files([(FILE, FILE + PAGE, b'/lib/x')]))


def far():
    """Each block leads 64 KiB further than the one before."""
    count = 1 << 17
    (at, arena_bytes), (heap, data) = heap_of(count, 0)
    words = bytearray(data)
    for i in range(count):
        led_to = heap + 0x10010 * i % (32 * count)
        struct.pack_into('<QQQQ', words, 32 * i, led_to, 0x21, led_to, led_to)
    return core([(at, arena_bytes), (heap, bytes(words))], b'')


def made(kind):
    if kind == 'small':
        return small()
    if kind == 'far':
        return far()
    if kind == 'top':
        return core(heap_of(30000, 0, 1 << 46), b'')
    if kind == 'notes':
        return core(heap_of(100, 0), status([0] * 27) * 1000, [(PT_NOTE, 0)] * 11000)
    if kind == 'segments':
        return core([(HEAP << 1, bytes(1 << 19))], b'',
                    [(PT_LOAD, (HEAP << 1) + (1 << 20) * i) for i in range(1, 9000)])
    if kind == 'threads':
        return broken_heaps(200, 64, 800)
    if kind == 'pages':
        return broken_heaps(200, 128, 0)
    if kind == 'path':
        return core(heap_of(19000, FILE + 64), files([(FILE, FILE + PAGE, b'/' + b'x' * 400000)]))
    if kind == 'long':
        return core(heap_of(32000, FILE + 64), files([(FILE, FILE + PAGE, b'/' + b'x' * 4090)]))
    if kind == 'names':
        return core(heap_of(10, 0), files([(FILE, FILE + PAGE, b'/x/libjemalloc\x1b[31m.so')]))
    return many_headers()


def table(depth, used, entries, leaves=0):
    """A table: the head, the entries, and after them the leaves (table.h)."""
    head = bytearray(16384)
    struct.pack_into('<8sQQQQQQQQQ', head, 0, b'leaktab7', 1, depth, TABLE, used, 0, 0, 0,
                     16384 + used * 8 * (3 + depth) if leaves else 16384, leaves)
    return bytes(head) + entries


def leaves():
    """Each second piece of a leaf was in a block. Each second leaf tells of the first memory of the heap."""
    regions = [HEAP >> 16 if i % 2 else (FILE >> 16) + i for i in range(2000)]
    return b''.join(struct.pack('<65Q', ~region % (1 << 64), *[0x5555555555555555] * 64) for region in regions)


def main():
    kind, path = sys.argv[1:3]
    with open(path, 'wb') as file:
        if kind == 'table':
            file.write(table(1, (1 << 38) // 32 - 512, b''))
            file.truncate(1 << 38)
        elif kind == 'few':
            words = [~value % (1 << 64) for i in range(3) for value in (0x10000 + 64 * i, 40, i, FILE + 64)]
            leaf = struct.pack('<65Q', ~1 % (1 << 64), 0xffff, *[0] * 63)
            file.write(table(1, 3, struct.pack('<12Q', *words) + leaf, 1))
        elif kind == 'paths':
            entry = struct.pack('<35Q', *[~value % (1 << 64) for value in [0x1000, 16, 1] + [FILE + 64] * 32])
            file.write(table(32, 3000, b''.join(struct.pack('<Q', ~(0x1001 + 32 * i) % (1 << 64) | 1) + entry[8:]
                                                for i in range(3000))))
        elif kind == 'leaves':
            file.write(table(1, 0, leaves(), 2000))
        elif kind == 'sparse':
            file.write(core(heap_of(1000, 0), b'', hole=1 << 36))
            file.truncate(file.tell() + (1 << 36))
        else:
            file.write(made(kind))
    if kind in ('table', 'few', 'paths', 'leaves'):
        with open(sys.argv[3], 'wb') as file:
            name = b'/' + b'x' * (4090 if kind == 'paths' else 1)
            file.write(core(heap_of(3000, 0), files([(TABLE, TABLE + (1 << 38), b'/t'), (FILE, FILE + PAGE, name)])))


main()
