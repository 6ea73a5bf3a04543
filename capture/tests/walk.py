"""walk.py TABLE_LOG WALK_LOG [MORE]: the live blocks of a log by leak_log against those of leak_walk, of one moment.
Prints how many are in both, in one alone, and have a size that malloc doesn't give for what was asked. Ends with 1
where a block of the table is missing, a size is wrong, freed memory lies over a block, or more than MORE blocks (none)
are in the walk alone."""
import bisect, re, sys

PAGE, CHUNK_HEAD, LEAST_USABLE, MOST_ALIGNMENT, LAST = 4096, 8, 24, 1 << 16, 8

def read(path):
    live, freed, last = {}, [], None
    for line in open(path, encoding="latin1"):
        if m := re.match(r"\+ 0x(\w+) 0x(\w+)$", line):
            last = int(m[1], 16), int(m[2], 16)
        elif m := re.match(r"- 0x(\w+)$", line):
            start = int(m[1], 16)
            if last and last[0] == start:
                freed.append(last)
            else:
                del live[start]
            last = None
        elif m := re.match(r"@ .* \+ 0x(\w+) 0x(\w+)$", line):
            start = int(m[1], 16)
            assert start not in live, line
            live[start] = int(m[2], 16)
        elif not line.startswith("= "):
            sys.exit(f"no line of a log: {line}")
    return live, freed

def is_usable(start, usable, asked):
    """What malloc_usable_size may say: a remainder too small for a chunk stays at the block; pvalloc gives whole pages;
    a block with a mapping of its own goes up to the last word of a page, and an aligned one may have begun as much
    later as its alignment."""
    exact = max(LEAST_USABLE, (asked + CHUNK_HEAD + 15) // 16 * 16 - CHUNK_HEAD)
    if start % PAGE == 0:
        exact_pages = (asked + PAGE - 1) // PAGE * PAGE + CHUNK_HEAD
        if exact_pages <= usable <= exact_pages + 32:
            return True
    alignment = min(start & -start, MOST_ALIGNMENT)
    return exact <= usable <= exact + 32 or (asked <= usable < asked + PAGE + max(PAGE, alignment + 1) and
                                             (start + usable + LAST) % PAGE == 0)

def over(freed, live):
    starts = sorted(live)
    for start, size in freed:
        at = bisect.bisect_left(starts, start + size)
        if at and starts[at - 1] + max(live[starts[at - 1]], 1) > start:
            yield start

table, table_freed = read(sys.argv[1])
walk, walk_freed = read(sys.argv[2])
more = int(sys.argv[3]) if len(sys.argv) > 3 else 0
missing = sorted(set(table) - set(walk))
extra = sorted(set(walk) - set(table))
odd = [a for a in table if a in walk and not is_usable(a, walk[a], table[a])]
lost = list(over(walk_freed, {**table, **walk}))
print(f"both {len(table) - len(missing)}, only in the table {len(missing)}, only in the walk {len(extra)}, odd sizes "
      f"{len(odd)}, freed over live {len(lost)}")
for a in missing[:5]:
    print("  only in the table", hex(a), table[a])
for a in extra[:5]:
    print("  only in the walk", hex(a), walk[a])
for a in odd[:5]:
    print("  odd size", hex(a), table[a], walk[a])
for a in lost[:5]:
    print("  freed over live", hex(a))
sys.exit(bool(missing or odd or lost or len(extra) > more))
