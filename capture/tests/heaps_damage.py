"""heaps_damage.py WALK KIND CORE COUNT SEED: changes a word of each kind of record of a heap in turn, COUNT in all, or
fills the bytes around it with zeros, and walks the core each time. Such a walk must refuse the core, or find the same
blocks, and no more memory that is not in use. Prints how many did each, and where a log was another one; those of which
nothing else in the core says the same are counted by themselves."""
import random
import subprocess
import sys

from heaps_core import Core, lies_in, read_log
from heaps_records import RECORDS, UNCONFIRMED

walk, kind, path, count, seed = sys.argv[1], sys.argv[2], sys.argv[3], int(sys.argv[4]), int(sys.argv[5])
random.seed(seed)


def walked():
    """None if the core was refused, else what the log has."""
    ended = subprocess.run([walk, "--quiet", path], stdout=subprocess.PIPE, stderr=subprocess.PIPE, timeout=60)
    if ended.returncode == 2 and not ended.stdout and ended.stderr.count(b"\n") == 1:
        return None
    if ended.returncode not in (0, 1):
        sys.exit("%s: status %d: %s" % (path, ended.returncode, ended.stderr[-400:]))
    return read_log(ended.stdout) + (ended.returncode,)


def changed(value):
    """One bit more or less, nothing, a word of other memory, text, a little more or less."""
    how = random.randrange(6)
    return [value ^ 1 << random.randrange(64), value ^ 1 << random.randrange(20), 0, random.getrandbits(64),
            0x41414141414141,
            (value + random.choice([-16, -8, -1, 1, 8, 16, 4096])) % 2**64][how]


def changes(address):
    """The words that are changed, and their new values."""
    size = random.choice(SIZES)
    start = address & -size
    words = core.words(start, size // 8)
    if size > 8 and len(words) == size // 8 and any(words):
        return {start + 8 * i: 0 for i in range(len(words))}
    return {address: changed(core.word(address))}


SIZES = [8] * 8 + [16, 64, 512, 4096]       # most changes are of one word
core = Core(path)
blocks, unused, anchor, _ = walked()
records = {name: [at for at in places if core.place(at) is not None] for name, places in RECORDS[kind](core, blocks,
                                                                                                       anchor).items()}
records = {name: places for name, places in records.items() if places}
told = {"refused": 0, "same": 0, "unconfirmed": 0, "wrong": 0}
for number in range(count):
    record = sorted(records)[number % len(records)]
    address = random.choice(records[record])
    new = changes(address)
    old = {at: core.word(at) for at in new}
    for at, value in new.items():
        core.put(at, value)
    found = walked()
    for at, value in old.items():
        core.put(at, value)
    if found is None:
        told["refused"] += 1
    elif found[0] == blocks and lies_in(found[1], unused):
        told["same"] += 1
    elif kind in UNCONFIRMED and UNCONFIRMED[kind](record, old, new, records):
        told["unconfirmed"] += 1
    else:
        told["wrong"] += 1
        print("%s: %d words from 0x%x on, 0x%x to 0x%x: %d blocks are missing, %d are more, status %d" %
              (record, len(new), min(new), old[min(new)], new[min(new)], len(blocks - found[0]), len(found[0] - blocks),
               found[3]))
print(", ".join("%s %d" % pair for pair in told.items()), "of",
      ", ".join("%d %s" % (len(records[r]), r) for r in sorted(records)))
