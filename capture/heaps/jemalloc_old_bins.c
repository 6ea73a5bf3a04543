/* Bins of threads' caches of jemalloc 5.2.1, and their stack (cache_bin.h, tcache.c). The stack is a block that jemalloc
 * gave itself. Each bin says where its part of it ends, and how many items it has there. */
#include "jemalloc_old.h"

/* tcache_types.h, TCACHE_NSLOTS_SMALL_MIN and .._LARGE, TCACHE_NSLOTS_SMALL_MAX. */
enum { LEAST_ITEMS = 20, MOST_ITEMS = 200 };

/* Reads a bin: the least count of items since the last collection, the count, and where its part of the stack ends. */
static int read_bin(struct jemalloc *je, uint64_t at, struct bin *bin)
{
    uint64_t counts;
    int32_t least, items;

    if (!read_word(je->heap, at, &counts) || !read_word(je->heap, at + 16, &bin->end) || bin->end % 8 || bin->end < MOST_ITEMS * 8)
        return 0;
    least = (int32_t)counts;
    items = (int32_t)(counts >> 32);
    /* both are counted down before it is seen that there are none */
    if (items < -1 || items > MOST_ITEMS || least < -1 || least > items + 1)
        return 0;
    bin->head = bin->end - 8 * (uint64_t)(items < 0 ? 0 : items);
    return 1;
}

/* The start of the block that has the address, and its end; or 0. */
static uint64_t block_with(const struct jemalloc *je, uint64_t address, uint64_t *end)
{
    const struct slab *s = slab_at(je, address);
    size_t low = 0, high = je->large_count;
    uint64_t start = 0;

    if (s) {
        start = address - (address - s->start) % je->size_of[s->class];
        *end = start + je->size_of[s->class];
        return start;
    }
    while (low < high) {
        size_t middle = low + (high - low) / 2;
        if (je->larges[middle].start > address)
            high = middle;
        else
            low = middle + 1;
    }
    if (low) {
        start = je->larges[low - 1].start;
        *end = start + je->larges[low - 1].size;
    }
    return low && address < *end ? start : 0;
}

/* How many items a bin has room for: twice the regions of a slab, within limits (tcache.c, tcache_boot). Of a class that
 * has no slab, the usual one is the least of whole pages that leave no rest. */
static uint64_t room_of(const struct jemalloc *je, unsigned class)
{
    uint64_t regions = je->regions_of[class], size = je->size_of[class], slab = PAGE;

    if (class >= je->bins)
        return LEAST_ITEMS;
    while (!regions && slab % size)
        slab += PAGE;
    regions = regions ? regions : slab / size;
    return 2 * regions < LEAST_ITEMS ? LEAST_ITEMS : 2 * regions > MOST_ITEMS ? MOST_ITEMS : 2 * regions;
}

static int has_room(const struct jemalloc *je, const struct bin *bin, unsigned class)
{
    return bin->start < bin->end && bin->end - bin->start == 8 * room_of(je, class) && bin->head >= bin->start;
}

/* The block of the stack must be in use, and as large as the bins need. That of a cache that the program made has the
 * cache first. */
static int has_stack(struct jemalloc *je, struct cache *cache)
{
    uint64_t end, needed, number, start = block_with(je, cache->bins[0].end - 8, &end);
    const struct slab *s = region_at(je, start, &number);
    const struct large *l = large_at(je, start);
    unsigned class = s ? s->class : l ? l->class : 0;

    if (!start || (!s && !l))
        return 0;
    cache->block = start;
    cache->bins[0].start = start == cache->at ? cache->at + cache_bytes(je) : start;
    needed = (cache->bins[cache->count - 1].end - start + CACHE_LINE - 1) & -(uint64_t)CACHE_LINE;
    return needed <= je->size_of[class] && (!class || needed > je->size_of[class - 1]);
}

static int are_zero(struct jemalloc *je, uint64_t at, uint64_t end)
{
    uint64_t value;

    return !next_word(je->heap, &at, end, &value);
}

/* Reads the bins up to the first that is not used, behind which none is: the part of each begins where that of the one
 * before ends. */
static int read_bins(struct jemalloc *je, struct cache *cache)
{
    for (cache->count = 0; cache->count < je->classes; cache->count++) {
        struct bin *bin = cache->bins + cache->count;
        uint64_t place = place_of_bin(je, cache, cache->count);
        if (cache->count >= je->bins && are_zero(je, place, place + BIN_BYTES))
            return are_zero(je, place, cache->end);
        if (!read_bin(je, place, bin))
            return 0;
        if (cache->count)
            bin->start = bin[-1].end;
        if (cache->count && !has_room(je, bin, cache->count))
            return 0;
    }
    return 1;
}

/* Reads the cache that may be there, and says whether it is one. */
int read_old_cache(struct jemalloc *je, uint64_t at, struct cache *cache)
{
    cache->at = at, cache->end = at + cache_bytes(je);
    cache->small = at + TO_SMALL, cache->large = at + to_large(je);
    return read_bins(je, cache) && has_stack(je, cache) && has_room(je, cache->bins, 0);
}
