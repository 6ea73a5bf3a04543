"""Where the records of each heap are: of each kind, the words that are not 0, and some that are."""
import random


def used(core, start, count):
    """Words of a record that are not 0."""
    return [start + 8 * i for i, value in enumerate(core.words(start, count)) if value]


def musl(core, blocks, anchor):
    """malloc_context, the pages of metas, the heads of groups and of slots (musl, src/malloc/mallocng/meta.h)."""
    found = {"context": used(core, anchor, 106), "areas": [], "metas": [], "groups": [], "slots": []}
    area = core.word(anchor + 56)
    while area:
        found["areas"] += [area, area + 8, area + 16]
        for meta in range(area + 24, area + 24 + 40 * 101, 40):
            found["metas"] += used(core, meta, 5)
            group = core.word(meta + 16)
            found["groups"] += [group, group + 8] if group else []
        area = core.word(area + 8)
    found["slots"] = [start - 8 for start, _ in random.sample(sorted(blocks), min(1000, len(blocks)))]
    return found


def jemalloc(core, blocks, anchor):
    """Heads of base blocks, the tree's root and leaves, edatas with their maps, and threads' caches: bins, the heads of
    their items by themselves, and the junk at their stack's ends (jemalloc 5.3,
    include/jemalloc/internal/{base,rtree,edata,cache_bin}.h)."""
    found = tree(core, anchor, (1 << 48) - 128, 20)
    for at, count in arrays(core):
        found["bins"] += [at + 24 * i + 16 for i in range(count)]
        found["heads"] += [at + 24 * i for i in range(count)]
        stack = core.word(at) - ((core.word(at) - (core.word(at + 16) >> 16)) & 0xffff) - 8
        found["junk"] += [stack] if core.word(stack) == 0x7a7a7a7a7a7a7a7a else []
    return found


def jemalloc_old(core, blocks, anchor):
    """As of 5.3; of caches the bins' ends, their counts by themselves, and what leads from cache to cache and from the
    arenas to them (jemalloc 5.2.1, include/jemalloc/internal/{extent,tcache,arena}_structs*.h)."""
    found = tree(core, anchor, (1 << 48) - 2, 18)
    found.update({"counts": [], "rings": [], "lists": []})
    for cache, ring, bins in old_caches(core):
        found["bins"] += [at + 16 for at in bins]
        found["counts"] += [at for at in bins] + [at + 8 for at in bins]
        found["rings"] += [ring + at for at in (0, 8, 40, 48, 56, 64, 72)]
        arena = core.word(ring + 72)
        found["lists"] += [arena + 10184, arena + 10192]
    return found


def old_caches(core):
    """Where each cache is, its ring, which comes after the bins of 36 or 39 small sizes, and its bins."""
    for start, size in core.writable():
        for i, value in enumerate(core.words(start, size // 8)):
            for small in (36, 39):
                ring = start + 8 * i - 56
                cache, large = ring - 24 * small - 16, (ring + 84 + small + 7) & -8
                if value == cache + 16 and core.word(ring + 64) == large and core.word(ring + 72):
                    bins = [at + 24 * k for at, count in ((cache + 16, small), (large, 5)) for k in range(count)]
                    yield cache, ring, bins


def tree(core, anchor, mask, class_at):
    """Heads of base blocks, the tree's root and leaves, and the records of extents with their maps."""
    found = {"bases": [], "root": [], "leaves": [], "edatas": [], "maps": [], "bins": [], "heads": [], "junk": []}
    bases = []
    for start, size in core.writable():
        for at in range(-(-start // HUGE) * HUGE, start + size - 64, HUGE):
            length, following, _, address, left = core.words(at, 5)
            is_whole = length and length % HUGE == 0 and following % HUGE == 0
            if is_whole and at < address <= at + length == address + left:
                bases.append((at, at + length))
                found["bases"] += [at, at + 8, at + 24, at + 32]
    inside = lambda at: any(start <= at < end for start, end in bases)
    found["root"] = [at for page in range(anchor & -4096, anchor + (1 << 21), 4096) for at in used(core, page, 512)
                     if 0 <= at - anchor < 1 << 21]
    edatas = set()
    for root in found["root"]:
        leaf = core.word(root)
        for page in range(0, 1 << 21, 4096):
            found["leaves"] += used(core, leaf + page, 512)
    for leaf in found["leaves"]:
        edata = core.word(leaf) & mask
        if inside(edata):
            edatas.add(edata)
    for edata in edatas:
        found["edatas"] += [edata, edata + 8, edata + 16]
        if core.word(edata) >> 12 & 1 and core.word(edata) >> class_at & 255 < 36:
            found["maps"] += used(core, edata + 64, 8)
    return found


def jemalloc_unconfirmed(record, old, new, records):
    """A map with as many free regions, the place in its first page where a large block begins, and where in its stack
    the items of a bin begin."""
    (at, before), after = next(iter(old.items())), next(iter(new.values()))
    return len(new) == 1 and (record == "heads"
                              or (record == "maps" and bin(before).count("1") == bin(after).count("1"))
                              or (record == "edatas" and at % 64 == 8 and not (before ^ after) & ~0xfc0))


def jemalloc_old_unconfirmed(record, old, new, records):
    """The same, and how many items a bin has."""
    return all(at in records["counts"] for at in new) or jemalloc_unconfirmed(record, old, new, records)


HUGE = 2 << 20


def bins_at(words):
    """How many bins of a cache follow one another."""
    count, end = 0, None
    for i in range(0, len(words) - 2, 3):
        full, empty = words[i + 2] >> 16 & 0xffff, words[i + 2] >> 32 & 0xffff
        if not words[i] or words[i] % 8 or words[i + 2] >> 48 or (end is not None and full != end) or full == empty:
            break
        count, end = count + 1, empty
    return count


def arrays(core):
    """Where the bins of each cache begin, and how many they are."""
    for start, size in core.writable():
        words, i = core.words(start, size // 8), 0
        while i < len(words) - 2:
            may_begin = words[i] > 4096 and words[i + 2] > 65536 and not words[i + 2] >> 48
            count = bins_at(words[i:i + 192]) if may_begin else 0
            if count >= 36:
                yield start + 8 * i, count
            i += 3 * count if count >= 36 else 1


def mimalloc(core, blocks, anchor):
    """Heaps and their threads' data, segments, pages, the slices that lead back, free blocks, and those that other
    threads freed, by page and by heap (mimalloc 2.0, include/mimalloc-types.h)."""
    found = {"heaps": [], "segments": [], "pages": [], "slices": [], "lists": [], "others": [], "delayed": []}
    heaps = {anchor}
    for start, size in core.writable():
        for segment in range(-(-start // SEGMENT) * SEGMENT, start + size - 512, SEGMENT):
            if core.word(segment + 264) != 1 or core.word(segment + 232) != 1:
                continue
            found["segments"] += [segment + at for at in (208, 216, 224, 232, 240, 248, 256, 264)]
            at, last = 1, core.word(segment + 248)
            while at < last:
                page = segment + 264 + 80 * at
                count, used = core.word(page), core.word(page + 24) >> 32 > 1
                found["slices"] += [page, min(page + 80 * (count - 1), segment + 264 + 80 * last)]
                if used:
                    found["pages"] += [page + word for word in (0, 8, 16, 24, 32, 48)]
                    heaps.add(core.word(page + 48))
                    found["lists"] += [block for block in (core.word(page + word) for word in (16, 32)) if block]
                    found["others"] += [page + 40] + chain(core, core.word(page + 40) & ~3)
                at += count
    for heap in heaps - {0}:
        found["heaps"] += [heap, core.word(heap) + 16, core.word(heap) + 896]
        found["heaps"] += [heap + at for at in (1080, 1104, 2848, 2864, 3024)]
        found["delayed"] += [heap + 2840] + chain(core, core.word(heap + 2840))
    return found


def chain(core, block):
    """The blocks of a list."""
    found = []
    while block and len(found) < 100000:
        found.append(block)
        block = core.word(block)
    return found


def mimalloc_unconfirmed(record, old, new, records):
    """Of a page's list of blocks that other threads freed nothing has the length."""
    return any(at in old for at in records["others"])


SEGMENT = 32 << 20


def tcmalloc(core, blocks, anchor):
    """The map of pages, spans, central lists and their chains, threads' caches and the first objects of lists
    (gperftools 2.10, src/{span,central_freelist,thread_cache}.h)."""
    found = {"root": used(core, anchor, 1 << 17), "leaves": [], "spans": [], "central": [], "chains": [], "caches": [],
             "lists": []}
    spans = set()
    for root in found["root"]:
        for page in range(0, 8 << 18, 4096):
            found["leaves"] += used(core, core.word(root) + page, 512)
    # words that are left over lead to what is no span, or not theirs
    page_of = lambda leaf: next((root - anchor) // 8 << 18 | (leaf - core.word(root)) // 8 for root in found["root"]
                                if 0 <= leaf - core.word(root) < 8 << 18)
    found["leaves"] = [leaf for leaf in found["leaves"] if core.word(core.word(leaf)) == page_of(leaf)]
    for leaf in found["leaves"]:
        spans.add(core.word(leaf))
    for span in spans:
        found["spans"] += [span, span + 8, span + 40]
        found["spans"] += [span + 32] if core.word(span + 32) and core.word(span + 40) >> 16 & 255 else []
    for start, size in core.writable():
        words = core.words(start, size // 8)
        for i, value in enumerate(words):
            if value == 1 and i + 152 * 20 < len(words) and all(words[i + 152 * k] == k + 1 for k in range(20)):
                for at in range(start + 8 * i - 8, start + 8 * i - 8 + 1216 * 80, 1216):
                    found["central"] += [at + 8, at + 112, at + 120] + used(core, at + 128,
                                                                            2 * (core.word(at + 1152) & 255))
                    found["chains"] += [at + 1152]
            if value == 8 and i + 4 < len(words) and words[i + 4] == 16 and all(words[i + 4 * k] > 16
                                                                                for k in range(2, 20)):
                for at in range(start + 8 * i - 24, start + 8 * i - 24 + 32 * 80, 32):
                    found["caches"] += [at + word for word in (0, 8, 24) if core.word(at + word)]
                    found["lists"] += [core.word(at)] if core.word(at) else []
    return found


def tcmalloc_unconfirmed(record, old, new, records):
    """How many chains a central list's cache has."""
    return any(at in old for at in records["chains"])


UNCONFIRMED = {"jemalloc": jemalloc_unconfirmed, "jemalloc_old": jemalloc_old_unconfirmed, "mimalloc": mimalloc_unconfirmed, "tcmalloc": tcmalloc_unconfirmed}
RECORDS = {"musl": musl, "jemalloc": jemalloc, "jemalloc_old": jemalloc_old, "mimalloc": mimalloc, "tcmalloc": tcmalloc}
