/* What the files of the caches of jemalloc 5.2.1 share. */
#ifndef LEAK_JEMALLOC_OLD_H
#define LEAK_JEMALLOC_OLD_H

#include "jemalloc.h"

/* Offsets in tcache_t (tcache_structs.h), and of its two lists in arena_t (arena_structs_b.h). */
enum { TO_SMALL = 16, TO_LISTS = 10184, CACHE_LINE = 64 };

/* Behind the bins of small sizes come its ring, its descriptor with that one's words for both kinds of bins, its arena,
 * four bytes and one for each small size, and the other bins. */
static inline uint64_t to_ring(const struct jemalloc *je) { return TO_SMALL + BIN_BYTES * je->bins; }
static inline uint64_t to_descriptor(const struct jemalloc *je) { return to_ring(je) + 40; }
static inline uint64_t to_small_bins(const struct jemalloc *je) { return to_descriptor(je) + 16; }
static inline uint64_t to_arena(const struct jemalloc *je) { return to_descriptor(je) + 32; }
static inline uint64_t to_large(const struct jemalloc *je)
{
    return (to_arena(je) + 8 + 4 + je->bins + 7) & -(uint64_t)8;
}
static inline uint64_t cache_bytes(const struct jemalloc *je)
{
    return to_large(je) + BIN_BYTES * (je->classes - je->bins);
}

/* Of the thread's own data, by how much it comes before its cache (tsd.h): its start, its arena, its table of arenas. */
enum { TO_TSD = 496, TO_TSD_ARENA = 56, TO_TSD_TABLE = 48 };

/* jemalloc_old_bins.c */
int read_old_cache(struct jemalloc *je, uint64_t at, struct cache *cache);

#endif
