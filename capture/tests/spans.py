"""spans.py LOG: what a log of leak_log says of freed memory: pairs of lines, each of less than 128 KiB, over no live
block. Prints their number and bytes, or what is wrong."""
import bisect, re, sys
live, starts, spans, size_of_all = {}, [], 0, 0
lines = open(sys.argv[1], errors="surrogateescape").read().split("\n")
k = 0
while k < len(lines):
    line = lines[k]
    k += 1
    if m := re.match(r"\+ 0x(\w+) 0x(\w+)$", line):
        start, size = int(m[1], 16), int(m[2], 16)
        at = bisect.bisect_left(starts, start + size)
        over = [s for s in starts[max(at - 3, 0):at] if s + max(live[s], 1) > start]
        if lines[k] != f"- 0x{m[1]}" or not 0 < size < 131072 or over:
            sys.exit(f"line {k}: {line}: {lines[k]}: over {list(map(hex, over))}")
        k += 1
        spans += 1
        size_of_all += size
    elif m := re.search(r"\] \+ 0x(\w+) 0x(\w+)$", line):
        start = int(m[1], 16)
        assert start not in live, line
        live[start] = int(m[2], 16)
        bisect.insort(starts, start)
    elif m := re.match(r"- 0x(\w+)$", line):
        del live[int(m[1], 16)]
        starts.remove(int(m[1], 16))
print(f"{spans} spans, {size_of_all} bytes, over no live block")
