/* Threads' caches of free chunks, which count as in use by the next chunk's bit (glibc, malloc/malloc.c,
 * tcache_perthread_struct). A cache is itself a chunk in use; it is known by its size and by its lists. */
#include <string.h>

#include "walk.h"

/* The cache's chunk: how many chunks each list has (or from 2.42 on may still take), and the first block of each. */
struct shape {
    uint64_t size, entries_at, bins, count_bytes;
    int counts_down, may_be_plain;
};

static const struct shape shapes[] = {
    { 0x250, 64, 64, 1, 0, 1 },     /* glibc 2.26 to 2.29 */
    { 0x290, 128, 64, 2, 0, 1 },    /* 2.30 to 2.41; links are plain up to 2.31 */
    { 0x300, 152, 76, 2, 1, 0 },    /* 2.42 on, with lists for large blocks after the 64 for small ones */
};

enum { SHAPES = sizeof shapes / sizeof *shapes, MOST_BINS = 76, SMALL_BINS = 64, USUAL_COUNT = 7, ODD = 1 << 16 };
enum { TO_BLOCK = 16, LEAST = 32, STEP = 16, SIZE_WITH_KEY = 0x290 };

struct cache {
    uint64_t block;
    const struct shape *shape;
    int is_safe;
    uint64_t key;               /* the second word of each cached block up to 2.33, if it is known, or 0 */
    uint64_t first[MOST_BINS], count[MOST_BINS], taken[MOST_BINS];
};

static uint64_t count_at(struct heap *heap, const struct cache *c, uint64_t bin)
{
    uint64_t at = c->block + bin * c->shape->count_bytes, value = 0;

    word(heap->core, at & ~(uint64_t)7, &value);
    return value >> 8 * (at % 8) & (c->shape->count_bytes == 1 ? UINT8_MAX : UINT16_MAX);
}

/* Reads the cache. Gives how many of its lists have chunks, or -1 if it is cut off. */
static int read_cache(struct heap *heap, struct cache *c)
{
    int filled = 0;

    for (uint64_t i = 0; i < c->shape->bins; i++) {
        if (!word(heap->core, c->block + c->shape->entries_at + 8 * i, c->first + i))
            return -1;
        c->count[i] = count_at(heap, c, i);
        filled += c->first[i] != 0;
    }
    return filled;
}

/* How many chunks an empty list may take. */
static uint64_t most_of(const struct cache *c)
{
    for (uint64_t i = 0; i < c->shape->bins; i++)
        if (!c->first[i])
            return c->count[i];
    return USUAL_COUNT;
}

/* Makes of what lists may still take what they have. */
static void turn_counts(struct cache *c)
{
    uint64_t most = most_of(c);

    for (uint64_t i = 0; i < c->shape->bins; i++)
        c->count[i] = c->count[i] <= most ? most - c->count[i] : ODD;
}

static uint64_t size_of(uint64_t bin)
{
    return bin < SMALL_BINS ? LEAST + STEP * bin : 0;
}

static int is_of_size(struct heap *heap, uint64_t block, uint64_t bin)
{
    return is_used(heap, block - TO_BLOCK) && (!size_of(bin) || size_at(heap, block - TO_BLOCK) == size_of(bin));
}

/* Whether each list begins with a block of its size, and has chunks if its count says so, except one that is just being
 * changed. */
static int looks_right(struct heap *heap, const struct cache *c)
{
    int odd = 0;

    for (uint64_t i = 0; i < c->shape->bins; i++) {
        if (c->first[i] && !is_of_size(heap, c->first[i], i))
            return 0;
        odd += !c->first[i] != !c->count[i];
    }
    return odd <= 1;
}

/* Takes the blocks of a list as free, one more than its count at most. Gives whether it ends well. */
static int take_list(struct heap *heap, struct cache *c, uint64_t bin)
{
    uint64_t block = c->first[bin], link, *taken = c->taken + bin;

    for (*taken = 0; block && *taken <= c->count[bin]; ++*taken) {
        if (!is_of_size(heap, block, bin) || !word(heap->core, block, &link) || (c->key && !is_word(heap->core, block + 8, c->key)))
            return 0;
        set_used(heap, block - TO_BLOCK, 0);
        block = revealed(block, link, c->is_safe);
    }
    return !block;
}

static void put_list_back(struct heap *heap, const struct cache *c, uint64_t bin)
{
    uint64_t block = c->first[bin], link;

    for (uint64_t i = 0; i < c->taken[bin] && word(heap->core, block, &link); i++) {
        set_used(heap, block - TO_BLOCK, 1);
        block = revealed(block, link, c->is_safe);
    }
}

static void put_back(struct heap *heap, const struct cache *c, uint64_t bins)
{
    while (bins--)
        put_list_back(heap, c, bins);
}

/* Takes all lists, or none. Of those whose links say nothing by themselves each must be as long as its count. */
static int take_lists(struct heap *heap, struct cache *c)
{
    uint64_t i = 0, odd = 0, steps = 0;
    int is_well = 1;

    for (; is_well && i < c->shape->bins; i++) {
        is_well = take_list(heap, c, i);
        odd += c->taken[i] != c->count[i];
        steps += c->taken[i];
    }
    if (is_well && odd <= (c->is_safe || c->key ? 1 : 0))
        return 1;
    take_steps(heap, steps, c->block);
    put_back(heap, c, i);
    return 0;
}

/* Whether the block is a cache of this shape; then its chunks are taken. The empty one of a thread is the first chunk of its
 * arena. */
static int take_as(struct heap *heap, uint64_t block, const struct shape *shape, int is_safe, int is_first)
{
    struct cache c = { .block = block, .shape = shape, .is_safe = is_safe };
    int filled = read_cache(heap, &c);

    if (filled < 0)
        return 0;
    if (shape->counts_down)
        turn_counts(&c);
    if (!is_safe && shape->size == SIZE_WITH_KEY)
        c.key = block;
    if (!looks_right(heap, &c) || (!filled && !is_first))
        return 0;
    return take_lists(heap, &c);
}

/* Whether a chunk of this size may be one of the shape: a remainder of less than a chunk makes it 16 bytes larger. */
static int has_shape(uint64_t size, const struct shape *shape)
{
    return size == shape->size || size == shape->size + STEP;
}

int may_be_cache(uint64_t size)
{
    int may_be = 0;

    for (int k = 0; k < SHAPES; k++)
        may_be |= has_shape(size, shapes + k);
    return may_be;
}

static int is_cache(struct heap *heap, uint64_t block, uint64_t size, int is_first)
{
    int found = 0;

    for (int k = 0; k < SHAPES && !found; k++)
        found = has_shape(size, shapes + k)
            && (take_as(heap, block, shapes + k, 1, is_first)
                || (shapes[k].may_be_plain && take_as(heap, block, shapes + k, 0, is_first)));
    return found;
}

/* A chunk that a cache has taken as free meanwhile is none. */
static void take_caches_in_chunks(struct heap *heap)
{
    for (size_t i = 0; i < heap->maybe_cache_count; i++) {
        uint64_t at = heap->maybe_caches[i].at;
        if (is_used(heap, at) && is_cache(heap, at + TO_BLOCK, heap->maybe_caches[i].size, begins_region(heap, at)))
            set_used(heap, at, 0);
    }
}

/* A cache has a mapping of its own if M_MMAP_THRESHOLD is small. */
static int is_mapped_cache(struct heap *heap, const struct mapping *m)
{
    int found = 0;

    for (int k = 0; k < SHAPES && !found && m->end - m->start == PAGE; k++)
        found = is_cache(heap, m->block, shapes[k].size, 0);
    return found;
}

/* Takes what caches have as free, and the caches as malloc's own. */
void take_caches(struct heap *heap)
{
    size_t left = 0;

    take_caches_in_chunks(heap);
    for (size_t i = 0; i < heap->mapping_count; i++)
        if (!is_mapped_cache(heap, heap->mappings + i))
            heap->mappings[left++] = heap->mappings[i];
    heap->mapping_count = left;
}
