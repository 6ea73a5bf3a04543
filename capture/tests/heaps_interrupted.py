"""heaps_interrupted.py WALK CORE: makes of a core of jemalloc at rest one in which a signal has stopped a thread as it
gave back what a bin of its cache has, and the handler waits in a system call (Linux, struct rt_sigframe). Prints how
many items the bin has, and how many of them the walk then tells as blocks: all, since another thread may have them by
now. And how many if the thread just put a block into the bin: the newest, which may not be written yet. Last, the
status of a walk at rest if the bin has an item twice."""
import struct
import subprocess
import sys

from heaps_core import Core, read_log
from heaps_records import arrays, old_caches

RSP, AT, INTO = 19, 64, 512
walk, path = sys.argv[1:3]
core = Core(path)


def bins_of():
    """The address of each bin, and those of its items on the stack and in the heap."""
    for at, count in arrays(core):
        for place in range(at, at + 24 * count, 24):
            head, _, low = core.words(place, 3)
            yield place, head, core.words(head, ((low >> 32) - head) % 2**16 // 8)
    for _, _, bins in old_caches(core):
        for place in bins:
            counts, _, end = core.words(place, 3)
            yield place, end - 8 * (counts >> 32), core.words(end - 8 * (counts >> 32), counts >> 32)


place, stack, items = max(bins_of(), key=lambda found: len(found[2]))
core.put(stack + 8, items[0])
twice = subprocess.run([walk, "--quiet", path], stdout=subprocess.DEVNULL, stderr=subprocess.DEVNULL, timeout=60).returncode
core.put(stack + 8, items[1])
rsp = next(struct.unpack_from("<27Q", note, 112)[RSP] for kind, note in core.each_note() if kind == 1)
files = next(note for kind, note in core.each_note() if kind == 0x46494c45)
count, = struct.unpack_from("<Q", files)
names = files[16 + 24 * count:].split(b"\0")
code = next(struct.unpack_from("<Q", files, 16 + 24 * i)[0] for i in range(count) if b"libjemalloc" in names[i])
frame = rsp + AT


def told(saved):
    """How many of the items are told as blocks while the registers that were saved have these values."""
    registers = {"rsp": rsp + INTO, "rip": code + 4096, "selectors": 0x2b << 48 | 0x33} | saved
    for name, number in {"rdi": 8, "rbx": 11, "rsp": 15, "rip": 16, "selectors": 18}.items():
        core.put(frame + 48 + 8 * number, registers.get(name, 0))
    log = subprocess.run([walk, "--quiet", path], stdout=subprocess.PIPE, timeout=60).stdout
    starts = {start for start, _ in read_log(log)[0]}
    return sum(item in starts for item in items)


core.put(frame + 8, 7)
core.put(frame + 16, 0)
print(len(items), told({"rbx": place}), told({"rdi": items[0]}), twice)
