"""What a core has, for dump.sh: dump.py word CORE ADDRESS..: the words there, `absent` where no segment has them.
dump.py vector CORE: the upper half of ymm8 of each thread where it is not 0, and how often the core has its bytes in
all. dump.py notes CORE: the types of the notes, in order; `own` is that of leak_core's own. dump.py sizes CORE:
segments, bytes of them, writable bytes that are listed without contents. dump.py order CORE: `first` if program headers
and notes stand before all memory, and this by ascending address; else what does not."""
import struct
import sys

PT_LOAD, PT_NOTE, PF_W, PN_XNUM, NT_X86_XSTATE = 1, 4, 2, 0xffff, 0x202
# where the upper halves stand in the standard format of XSAVE (Intel SDM, volume 1, 13.4.1 and 13.5.3)
YMM_UPPER = 576


def headers(core):
    """The program headers, each as (type, flags, offset, address, file size, memory size)."""
    at, sections, count = *struct.unpack_from('<QQ', core, 32), struct.unpack_from('<H', core, 56)[0]
    if count == PN_XNUM:
        count = struct.unpack_from('<I', core, sections + 44)[0]
    for i in range(count):
        kind, flags, offset, address, _, filed, held, _ = struct.unpack_from('<IIQQQQQQ', core, at + 56 * i)
        yield kind, flags, offset, address, filed, held


def notes(core):
    for kind, _, at, _, size, _ in headers(core):
        end = at + size
        while kind == PT_NOTE and at < end:
            name, content, number = struct.unpack_from('<III', core, at)
            is_own = core[at + 12:at + 12 + name] == b'LEAK_CORE\0'
            at += 12 + (name + 3 & ~3)
            yield 0 if is_own else number, core[at:at + content]
            at += content + 3 & ~3


def word(core, address):
    for kind, _, offset, start, filed, _ in headers(core):
        if kind == PT_LOAD and start <= address and address + 8 <= start + filed:
            return hex(struct.unpack_from('<Q', core, offset + address - start)[0])
    return 'absent'


def order(core):
    """What keeps a reader that goes from the beginning to the end from knowing what comes."""
    loads = [(offset, address, filed) for kind, _, offset, address, filed, _ in headers(core) if kind == PT_LOAD and
             filed]
    begin = min(load[0] for load in loads)
    if struct.unpack_from('<Q', core, 32)[0] >= begin:
        return 'headers last'
    if any(offset + filed > begin for kind, _, offset, _, filed, _ in headers(core) if kind == PT_NOTE):
        return 'notes last'
    ascend = all(a[0] + a[2] <= b[0] and a[1] + a[2] <= b[1] for a, b in zip(loads, loads[1:]))
    return 'first' if ascend else 'memory is not in order'


def main():
    with open(sys.argv[2], 'rb') as file:
        core = file.read()
    if sys.argv[1] == 'word':
        print(*[word(core, int(address, 16)) for address in sys.argv[3:]])
    elif sys.argv[1] == 'vector':
        uppers = [content[YMM_UPPER + 8 * 16:][:8] for number, content in notes(core) if number == NT_X86_XSTATE]
        print(*[upper[::-1].hex() + ' ' + str(core.count(upper)) for upper in uppers if any(upper)])
    elif sys.argv[1] == 'order':
        print(order(core))
    elif sys.argv[1] == 'notes':
        print(*[hex(number) if number else 'own' for number, _ in notes(core)])
    elif sys.argv[1] == 'sizes':
        loads = [header for header in headers(core) if header[0] == PT_LOAD]
        print(len(loads), sum(load[4] for load in loads), sum(load[5] - load[4] for load in loads if load[1] & PF_W))


main()
