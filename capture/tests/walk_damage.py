"""walk_damage.py CORE LOG COPY WHERE: copies a core with the size word of one block in use of the LOG damaged, so that
it leads nowhere: of the main heap, or of a thread's; or with `bit`, so that it says that the block before is free, as a
string does that is too long by its end. Prints where that block's chunk begins."""
import re, struct, sys
core, log, copy, where = sys.argv[1:]
data = bytearray(open(core, "rb").read())
headers, count = struct.unpack_from("<Q", data, 32)[0], struct.unpack_from("<H", data, 56)[0]
segments = []
for i in range(count):
    kind, _, offset, start, _, size = struct.unpack_from("<IIQQQQ", data, headers + 56 * i)
    if kind == 1:
        segments.append((start, size, offset))

def place(address):
    return next(offset + address - start for start, size, offset in segments if start <= address < start + size)

blocks = [int(m[1], 16) for m in re.finditer(r"^@ .* \+ 0x(\w+) 0x\w+$", open(log, encoding="latin1").read(), re.M)]
heads = {b: struct.unpack_from("<Q", data, place(b - 8))[0] for b in blocks}
chosen = [b for b in blocks if heads[b] & 7 == (5 if where == "thread" else 1)]
block = chosen[len(chosen) // 2]
if where == "bit": # of a block that another one follows
    block = next(b for b in chosen[len(chosen) // 2:] if b + heads[b] - 1 in heads)
    struct.pack_into("<Q", data, place(block + heads[block] - 1 - 8), heads[block + heads[block] - 1] - 1)
else:
    struct.pack_into("<Q", data, place(block - 8), heads[block] + 16 | 0x1000000000 | 8)
open(copy, "wb").write(data)
print(hex(block - 16))
