/* Threads' caches of jemalloc 5.2.1 (tcache_structs.h, tcache.c). Each lies in the thread's own memory, or in a block if
 * the program made it. It is in two rings with all others of its arena, and the arena leads to one of them. */
#include <stdlib.h>

#include "jemalloc_old.h"

/* A cache, and whether its arena's ring has it. */
struct old_cache {
    uint64_t at, arena;
    int is_listed;
};

struct old_caches {
    struct jemalloc *je;
    struct old_cache *list;     /* by ascending address */
    size_t count;
};

static struct old_cache *cache_at(const struct old_caches *all, uint64_t at)
{
    return all->count ? bsearch(&at, all->list, all->count, sizeof *all->list, by_start) : NULL;
}

/* That of a thread that has ended is of no arena. */
static void add_cache(struct old_caches *all, uint64_t at)
{
    const struct jemalloc *je = all->je;
    struct old_cache cache = { .at = at };

    if (!read_word(je->heap, at + to_arena(je), &cache.arena) || !cache.arena)
        return;
    all->list = grown(all->list, all->count, sizeof *all->list);
    all->list[all->count++] = cache;
}

/* Whether two words in a row may be those of an arena: its first cache, and the second ring's word there. */
static int is_list(const struct jemalloc *je, uint64_t at, uint64_t value)
{
    return value && value % 8 == 0 && !is_in_base(je, value, 1)
        && is_word(je->heap->core, at + 8, value + to_descriptor(je));
}

/* Finds caches by two words of each that have its own address. */
static void find_caches(struct old_caches *all, const struct segment *s)
{
    const struct jemalloc *je = all->je;
    uint64_t value, cache;

    for (uint64_t at = (s->start + 7) & -(uint64_t)8; next_word(je->heap, &at, s->start + s->size, &value); at += 8) {
        cache = at - to_small_bins(je);
        if (value == cache + TO_SMALL && is_word(je->heap->core, at + 8, cache + to_large(je)))
            add_cache(all, cache);
    }
}

/* The next one in both rings, from where both lead back; or NULL. */
static struct old_cache *next_of(const struct old_caches *all, const struct old_cache *cache)
{
    struct jemalloc *je = all->je;
    struct core *core = je->heap->core;
    uint64_t ring = to_ring(je), descriptor = to_descriptor(je), at;
    struct old_cache *next;

    if (!read_word(je->heap, cache->at + ring, &at) || !(next = cache_at(all, at)) || next->arena != cache->arena)
        return NULL;
    return is_word(core, at + ring + 8, cache->at) && is_word(core, cache->at + descriptor, at + descriptor)
        && is_word(core, at + descriptor + 8, cache->at + descriptor) ? next : NULL;
}

/* Follows the rings from an arena's list. */
static void take_list(struct old_caches *all, uint64_t at, uint64_t first)
{
    struct old_cache *start = cache_at(all, first), *cache = start;

    do {
        if (!cache || cache->is_listed || cache->arena != at - TO_LISTS) {
            tell_odd(all->je->heap, "the list of caches at 0x%llx does not fit", (unsigned long long)at);
            return;
        }
        cache->is_listed = 1;
        cache = next_of(all, cache);
    } while (cache != start);
}

static void take_lists(struct old_caches *all, const struct range *base)
{
    uint64_t at = base->start, value;

    for (; next_word(all->je->heap, &at, base->end, &value); at += 8)
        if (is_list(all->je, at, value))
            take_list(all, at, value);
}

/* A thread has a table of all arenas too, which jemalloc gave itself (tsd.h, arenas_tdata). */
static void take_table(struct jemalloc *je, const struct old_cache *found)
{
    uint64_t count, arena, table, number;
    const struct slab *s;
    const struct large *l;
    unsigned class;

    if (!read_word(je->heap, found->at - TO_TSD, &count) || !read_word(je->heap, found->at - TO_TSD_ARENA, &arena) || arena != found->arena
        || !read_word(je->heap, found->at - TO_TSD_TABLE, &table))
        return;
    s = region_at(je, table, &number);
    l = large_at(je, table);
    class = s ? s->class : l ? l->class : 0;
    count >>= 32;
    if ((s || l) && 8 * count <= je->size_of[class] && (!class || 8 * count > je->size_of[class - 1]))
        set_own(je, table);
}

/* A child of fork lists its only thread's cache. What others of the parent had in theirs is free, and lost. */
static void take_cache(struct old_caches *all, const struct old_cache *found)
{
    static struct cache cache;
    struct jemalloc *je = all->je;

    if (!read_old_cache(je, found->at, &cache)) {
        tell_odd(je->heap, "the cache at 0x%llx has bins that do not fit", (unsigned long long)found->at);
        return;
    }
    if (!found->is_listed && je->heap->core->thread_count > 1)
        tell_odd(je->heap, "the cache at 0x%llx is in no list of its arena", (unsigned long long)found->at);
    if (!set_own(je, cache.block))
        tell_odd(je->heap, "the cache at 0x%llx has the stack of another", (unsigned long long)found->at);
    je->stacks = grown(je->stacks, je->stack_count, sizeof *je->stacks);
    je->stacks[je->stack_count++] = (struct stack){ cache.block, 1, 0 };
    take_items(je, &cache);
    if (cache.block != found->at)
        take_table(je, found);
}

/* Without its statistics, jemalloc lists no caches. What lies as one does and has items is one. */
static void look_for_others(struct old_caches *all, const struct segment *s)
{
    static struct cache cache;
    struct jemalloc *je = all->je;
    uint64_t value, next;

    for (uint64_t at = (s->start + 7) & -(uint64_t)8; next_word(je->heap, &at, s->start + s->size, &value); at += 8)
        if (value % 8 == 0 && read_word(je->heap, at + BIN_BYTES, &next) && next > value && next - value <= PAGE
            && !cache_at(all, at - 16 - TO_SMALL) && read_old_cache(je, at - 16 - TO_SMALL, &cache) && has_items(&cache))
            tell_odd(je->heap, "the cache at 0x%llx is of no arena", (unsigned long long)cache.at);
}

/* Takes the items of all caches out of the blocks that are in use. */
void take_old_caches(struct jemalloc *je)
{
    struct old_caches all = { .je = je };
    const struct segment *s;

    for (size_t next = 0; (s = next_writable(je->heap, &next));)
        find_caches(&all, s);
    if (all.count)
        qsort(all.list, all.count, sizeof *all.list, by_start);
    for (size_t i = 0; i < je->base_count; i++)
        take_lists(&all, je->bases + i);
    for (size_t i = 0; i < all.count; i++)
        take_cache(&all, all.list + i);
    for (size_t next = 0; (s = next_writable(je->heap, &next));)
        look_for_others(&all, s);
    free(all.list);
}
