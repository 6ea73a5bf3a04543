/* Blocks of jemalloc by their address, and the items of threads' caches, which are free. */
#include <stdlib.h>

#include "jemalloc.h"

/* The slab that has the address, or NULL. */
struct slab *slab_at(const struct jemalloc *je, uint64_t address)
{
    size_t low = 0, high = je->slab_count;

    while (low < high) {
        size_t middle = low + (high - low) / 2;
        if (je->slabs[middle].end <= address)
            low = middle + 1;
        else
            high = middle;
    }
    return low < je->slab_count && je->slabs[low].start <= address ? je->slabs + low : NULL;
}

/* The block that isn't small and begins there, or NULL. */
struct large *large_at(const struct jemalloc *je, uint64_t start)
{
    return je->large_count ? bsearch(&start, je->larges, je->large_count, sizeof *je->larges, by_start) : NULL;
}

/* The slab that has a region there that is in use, and its number; or NULL. */
struct slab *region_at(const struct jemalloc *je, uint64_t address, uint64_t *number)
{
    struct slab *s = slab_at(je, address);

    if (!s || (address - s->start) % je->size_of[s->class])
        return NULL;
    *number = (address - s->start) / je->size_of[s->class];
    return has_bit(s->free, *number) ? NULL : s;
}

/* Whether an item is a block of the bin's class that is in use and in no other cache. */
static int can_be_item(const struct jemalloc *je, uint64_t item, unsigned class)
{
    uint64_t number;
    const struct slab *s = region_at(je, item, &number);
    const struct large *l = large_at(je, item);

    return s ? s->class == class && !has_bit(s->cached, number) && !has_bit(s->own, number) : l && l->class == class && l->use == IN_USE;
}

/* Takes the item whose word is there, and says whether it can be one. */
static int take_item(struct jemalloc *je, uint64_t at, unsigned class)
{
    uint64_t number, item;
    struct slab *s;

    if (!read_word(je->heap, at, &item) || !can_be_item(je, item, class))
        return 0;
    s = region_at(je, item, &number);
    if (s)
        set_bit(s->cached, number);
    else
        large_at(je, item)->use = CACHED;
    return 1;
}

/* From there on, where the first item of a bin is that can't be one; or the bin's end. */
static uint64_t odd_item(struct jemalloc *je, const struct bin *bin, uint64_t at, unsigned class)
{
    uint64_t item;

    while (at < bin->end && read_word(je->heap, at, &item) && can_be_item(je, item, class))
        at += 8;
    return at;
}

uint64_t place_of_bin(const struct jemalloc *je, const struct cache *cache, unsigned class)
{
    return class < je->bins ? cache->small + BIN_BYTES * class : cache->large + BIN_BYTES * (class - je->bins);
}

/* Whether a thread is filling or flushing the bin: then its items may be another thread's by now. */
static int is_at_work(const struct jemalloc *je, const struct cache *cache, unsigned class)
{
    const struct bin *bin = cache->bins + class;
    uint64_t place = place_of_bin(je, cache, class);
    struct range words = { .start = bin->start, .end = bin->end + 1 }, own = { .start = cache->at, .end = cache->end };
    struct range head = { .start = place, .end = place + 1 };

    return is_in_hands(je, words, own) || is_in_hands(je, head, own);
}

/* Takes the items of a bin, all or none: if one can't be, a thread may be giving all back. The count of items comes
 * before the newest item, which may still be in a register. */
static void take_bin(struct jemalloc *je, const struct cache *cache, unsigned class)
{
    const struct bin *bin = cache->bins + class;
    uint64_t first = bin->head + (je->is_held[class] ? 8 : 0), odd;

    if (first >= bin->end || is_at_work(je, cache, class))
        return;
    odd = odd_item(je, bin, first, class);
    for (uint64_t at = first; odd >= bin->end && at < bin->end; at += 8)
        if (!take_item(je, at, class))
            odd = at;
    if (odd < bin->end)
        tell_odd(je->heap, "the cache at 0x%llx has an item that is no block of its class, or has it twice, at 0x%llx",
                 (unsigned long long)cache->at, (unsigned long long)odd);
}

void take_items(struct jemalloc *je, const struct cache *cache)
{
    for (unsigned i = 0; i < cache->count; i++)
        take_bin(je, cache, i);
}

int has_items(const struct cache *cache)
{
    for (unsigned i = 0; i < cache->count; i++)
        if (cache->bins[i].head != cache->bins[i].end)
            return 1;
    return 0;
}

/* Takes the block that begins there as jemalloc's own. Says whether it was not so yet. */
int set_own(struct jemalloc *je, uint64_t block)
{
    uint64_t number;
    struct slab *s = region_at(je, block, &number);
    struct large *l = large_at(je, block);
    int is_new = s ? !has_bit(s->own, number) : l->use != OWN;

    if (s)
        set_bit(s->own, number);
    else
        l->use = OWN;
    return is_new;
}
