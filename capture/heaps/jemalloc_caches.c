/* Threads' caches of jemalloc 5.3 (cache_bin.h, tcache_structs.h). Each has an array of bins in the thread's own memory,
 * and one stack of all their items, which jemalloc gave itself, between two words of junk. Each bin tells where its
 * part of the stack begins and ends, and the next one begins there. */
#include <stdlib.h>

#include "jemalloc.h"

enum { MOST_BINS = 128 };
#define JUNK_BEFORE 0x7a7a7a7a7a7a7a7aull
#define JUNK_BEHIND 0xa7a7a7a7a7a7a7a7ull
#define JUNK_BEHIND_5_3_1 0x7a7a7a7a7a7a7a7bull

/* Reads a bin: its head, and the low bits of the lowest head since the last collection, of its start and of its end;
 * and how many items it has room for, or 0 before 5.3.1. */
static int read_bin(struct jemalloc *je, uint64_t at, struct bin *bin)
{
    uint64_t low;
    uint16_t items, room, least;

    if (!read_word(je->heap, at, &bin->head) || bin->head % 8 || !bin->head || !read_word(je->heap, at + 16, &low))
        return 0;
    room = (low >> 32) - (low >> 16);
    items = (low >> 32) - bin->head;
    least = (low >> 32) - low;
    bin->end = bin->head + items;
    bin->start = bin->end - room;
    /* the lowest head is written after the head */
    return room && room % 8 == 0 && items <= room && least <= items + 8 && (!(low >> 48) || low >> 48 == room / 8);
}

/* Reads as many bins as follow one another, up to the junk behind the last. */
static void read_cache(struct jemalloc *je, uint64_t at, struct cache *cache)
{
    cache->at = cache->small = cache->end = at;
    cache->large = at + BIN_BYTES * je->bins;
    cache->count = 0;
    for (struct bin bin; cache->count < MOST_BINS && read_bin(je, at, &bin); at += BIN_BYTES, cache->end = at) {
        if (cache->count && bin.start != cache->bins[cache->count - 1].end)
            return;
        cache->bins[cache->count++] = bin;
    }
}

static int by_stack(const void *a, const void *b) { return by_start(a, b); }

static struct stack *stack_at(const struct jemalloc *je, uint64_t start)
{
    return je->stack_count ? bsearch(&start, je->stacks, je->stack_count, sizeof *je->stacks, by_stack) : NULL;
}

static int has_junk_behind(struct jemalloc *je, uint64_t at)
{
    return is_word(je->heap->core, at, JUNK_BEHIND) || is_word(je->heap->core, at, JUNK_BEHIND_5_3_1);
}

/* Takes a cache. That of a thread that has ended is empty, and its stack may be anything. */
static void take_cache(struct jemalloc *je, const struct cache *cache)
{
    struct stack *stack = stack_at(je, cache->bins[0].start - 8);
    int is_filled = has_items(cache);

    if (!stack || !has_junk_behind(je, cache->bins[cache->count - 1].end) || (is_filled && stack->has_items)) {
        if (is_filled)
            tell_odd(je->heap, "the cache at 0x%llx has items and no stack of its own", (unsigned long long)cache->at);
        return;
    }
    stack->owners++;
    stack->has_items |= is_filled;
    take_items(je, cache);
}

/* Whether a block of that size begins with the one word, and has the other behind. */
static int is_stack(struct jemalloc *je, uint64_t start, uint64_t size)
{
    uint64_t at = start + 8, value;

    if (start % PAGE || !is_word(je->heap->core, start, JUNK_BEFORE))
        return 0;
    for (; next_word(je->heap, &at, start + size, &value); at += 8)
        if (value == JUNK_BEHIND || value == JUNK_BEHIND_5_3_1)
            return 1;
    return 0;
}

static void add_stack(struct jemalloc *je, uint64_t start, uint64_t size)
{
    if (!is_stack(je, start, size))
        return;
    je->stacks = grown(je->stacks, je->stack_count, sizeof *je->stacks);
    je->stacks[je->stack_count++] = (struct stack){ start, 0, 0 };
}

/* Finds blocks at a page's start that have the junk, and takes them for jemalloc's own. */
static void find_stacks(struct jemalloc *je)
{
    for (size_t i = 0; i < je->large_count; i++)
        add_stack(je, je->larges[i].start, je->larges[i].size);
    for (size_t i = 0; i < je->slab_count; i++)
        for (uint64_t at = je->slabs[i].start, number; at < je->slabs[i].end; at += PAGE)
            if (region_at(je, at, &number))
                add_stack(je, at, je->size_of[je->slabs[i].class]);
    if (je->stack_count)
        qsort(je->stacks, je->stack_count, sizeof *je->stacks, by_start);
    for (size_t i = 0; i < je->stack_count; i++)
        set_own(je, je->stacks[i].start);
}

static void look_in(struct jemalloc *je, const struct segment *s)
{
    enum { LEAST_ADDRESS = 1 << 16, ADDRESS_BITS = 47 };
    static struct cache cache;
    uint64_t value;

    for (uint64_t at = (s->start + 7) & -(uint64_t)8; next_word(je->heap, &at, s->start + s->size, &value); at += 8) {
        if (value < LEAST_ADDRESS || value % 8 || value >> ADDRESS_BITS)
            continue;
        read_cache(je, at, &cache);
        if (cache.count < je->bins)
            continue;
        take_cache(je, &cache);
        at += BIN_BYTES * cache.count - 8;
    }
}

/* Takes the items of all caches out of the blocks that are in use. */
void take_thread_caches(struct jemalloc *je)
{
    const struct segment *s;

    find_stacks(je);
    for (size_t next = 0; (s = next_writable(je->heap, &next));)
        look_in(je, s);
    for (size_t i = 0; i < je->stack_count; i++)
        if (!je->stacks[i].owners)
            tell_odd(je->heap, "the stack of a cache at 0x%llx is of no thread", (unsigned long long)je->stacks[i].start);
}
