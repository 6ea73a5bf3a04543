"""heaps_truth.py CORE LOG [REPORT]: a log of a walk against what heaps_storm says in its memory is live, and the blocks
that a report names against those that it lost. A block of which a thread was just at work may be in the log or not. An
aligned block may begin after the start of the block that the allocator has. Prints what is missing, what is more, and
how many blocks are smaller than what malloc says of them."""
import bisect
import sys

from heaps_core import Core, read_log

TRUTH, HANDS, MOST_LEAKS = 0x100000000000, 256, 4000
ALL = 2**64 - 1

core = Core(sys.argv[1])
with open(sys.argv[2], "rb") as log:
    blocks, _, _ = read_log(log.read())
slot_count, is_plain, leak_count = core.words(TRUTH, 3)
hands = {ALL ^ word for word in core.words(TRUTH + 32, HANDS) if word}
leaks_at = TRUTH + 32 + 8 * HANDS
leaks = core.words(leaks_at, 2 * leak_count)
slots = core.words(leaks_at + 16 * MOST_LEAKS, 4 * slot_count)
lost = {ALL ^ leaks[i]: ALL ^ leaks[i + 1] for i in range(0, len(leaks), 2)}
live = dict(lost)
for i in range(0, len(slots), 4):
    address = slots[i] if is_plain else ALL ^ slots[i]
    if address > 8:
        live[address] = (slots[i + 1], slots[i + 2])
starts = sorted(start for start, _ in blocks)
sizes = dict(blocks)


def holder(address):
    """The start of the block that has the address, or None."""
    i = bisect.bisect_right(starts, address) - 1
    return starts[i] if i >= 0 and address < starts[i] + sizes[starts[i]] else None


missing = smaller = 0
used = set()
for address, size in live.items():
    start = holder(address)
    used.add(start)
    asked, usable = size if isinstance(size, tuple) else (size, size)
    if start is None:
        missing += 1
    elif start + sizes[start] < address + asked and address not in hands:
        smaller += 1
hand = {holder(address) for address in hands}
more = [start for start in starts if start not in used and start not in hand]
print("missing %d smaller %d" % (missing, smaller))
print("live %d in the log %d more %d of %d bytes" % (len(live), len(blocks), len(more),
                                                     sum(sizes[start] for start in more)))
if len(sys.argv) > 3:
    with open(sys.argv[3], "rb") as report:
        named = {int(line.split()[1], 16) for line in report if line.startswith(b"leak ")}
    found = {holder(address) for address in lost} & named
    print("lost %d found %d others %d" % (len(lost), len(found), len(named - {holder(address) for address in lost})))
