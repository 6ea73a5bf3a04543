"""heaps_places.py KIND CORE LOG PLACES CHANGES: for heaps_patched.c, where in the core's file the words of a heap's
records are, at most 65,536; and in a new folder some changes."""
import os
import random
import struct
import sys

from heaps_core import Core, read_log
from heaps_records import RECORDS

kind, path, log, places, changes = sys.argv[1:6]
random.seed(1)
core = Core(path)
with open(log, "rb") as file:
    blocks, _, anchor = read_log(file.read())
words = []
for name, found in sorted(RECORDS[kind](core, blocks, anchor).items()):
    found = [at for at in found if core.place(at) is not None]
    words += random.sample(found, min(len(found), 4000))
with open(places, "wb") as file:
    file.write(b"".join(struct.pack("<Q", core.place(at)) for at in words[:1 << 16]))
os.mkdir(changes)
for number in range(40):
    chosen = [random.randrange(len(words)) for _ in range(1 + number % 3)]
    with open("%s/%d" % (changes, number), "wb") as file:
        for i in chosen:
            change = random.choice([0, 1 << random.randrange(64), random.getrandbits(16)])
            file.write(struct.pack("<HQ", i, core.word(words[i]) ^ change))
