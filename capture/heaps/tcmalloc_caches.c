/* Threads' caches of tcmalloc (src/thread_cache.h): each has a list for each class, with the class's size. Those of
 * threads that have ended are kept, empty. Each leads to the one before and the one behind it in a list of all, or
 * did: so one that is not known as a cache is missed. */
#include <stdlib.h>

#include "tcmalloc.h"

enum { LIST_BYTES = 32, TO_TOTAL = LIST_BYTES * MOST_CLASSES };

/* Where the two links are: 2.16 has no id of a thread in a cache, 2.10 has one. */
enum { TO_ID = TO_TOTAL + 32, TO_LINKS = TO_ID + 16, TO_LINKS_2_16 = TO_ID };

/* How many of a thread's lists have the size of their class. */
static unsigned sizes_at(struct tcmalloc *tc, uint64_t cache)
{
    unsigned found = 0;
    uint64_t value;

    for (unsigned i = 1; i < tc->classes; i++)
        found += read_word(tc->heap, cache + LIST_BYTES * i + 24, &value) && (value & UINT32_MAX) == tc->size_of[i];
    return found;
}

/* A thread's cache: its lists, and what they count. Behind them is how many bytes they have in all, and how many they
 * may have, which is never 0. */
static void take_cache(struct tcmalloc *tc, uint64_t cache)
{
    uint64_t bytes = 0, total, list, length, last;

    for (unsigned i = 1; i < tc->classes; i++) {
        uint64_t at = cache + LIST_BYTES * i;
        if (!read_word(tc->heap, at, &list) || !read_word(tc->heap, at + 8, &length)
            || take_list(tc, list, i, &last) != (length & UINT32_MAX) || length >> 32 > (length & UINT32_MAX))
            tell_odd(tc->heap, "the cache at 0x%llx has a list of another length, of class %u",
                     (unsigned long long)cache, i);
        bytes += (length & UINT32_MAX) * tc->size_of[i];
    }
    if (!read_word(tc->heap, cache + TO_TOTAL, &total) || (total & UINT32_MAX) != bytes || !(total >> 32))
        tell_odd(tc->heap, "the cache at 0x%llx counts other bytes than its lists have", (unsigned long long)cache);
    add_unused(tc->heap, cache, cache + TO_TOTAL);
}

/* Looks for caches by two lists in a row, and by two others, so that one that has an odd word is seen too. Gives where
 * a cache begins, or 0. */
static uint64_t cache_at(struct tcmalloc *tc, uint64_t at, uint64_t value)
{
    enum { FIRST = 1, SECOND = 5 };
    uint64_t next;

    for (unsigned class = FIRST; class <= SECOND; class += SECOND - FIRST)
        if ((value & UINT32_MAX) == tc->size_of[class] && read_word(tc->heap, at + LIST_BYTES, &next)
            && (next & UINT32_MAX) == tc->size_of[class + 1]
            && sizes_at(tc, at - 24 - LIST_BYTES * class) + 2 >= tc->classes - 1)
            return at - 24 - LIST_BYTES * class;
    return 0;
}

static void look_in(struct tcmalloc *tc, const struct segment *s)
{
    uint64_t value, end = s->start + s->size;

    for (uint64_t at = (s->start + 7) & -(uint64_t)8, cache; next_word(tc->heap, &at, end, &value); at += 8) {
        cache = cache_at(tc, at, value);
        if (!cache)
            continue;
        tc->caches = grown(tc->caches, tc->cache_count, sizeof *tc->caches);
        tc->caches[tc->cache_count++] = (struct range){ .start = cache };
        if (sizes_at(tc, cache) != tc->classes - 1)
            tell_odd(tc->heap, "the cache at 0x%llx has other sizes than its classes", (unsigned long long)cache);
        else
            take_cache(tc, cache);
        at = cache + TO_TOTAL - 8;
    }
}

/* Whether a link leads to a cache or to none, and which. */
static int read_link(struct tcmalloc *tc, uint64_t at, uint64_t *link)
{
    return read_word(tc->heap, at, link)
        && (!*link || bsearch(link, tc->caches, tc->cache_count, sizeof *tc->caches, by_start));
}

/* Whether all caches lead to caches, by links at this offset, or there is but one. */
static int are_linked(struct tcmalloc *tc, uint64_t offset)
{
    uint64_t next, before;

    for (size_t i = 0; i < tc->cache_count; i++) {
        uint64_t at = tc->caches[i].start + offset;
        if (!read_link(tc, at, &next) || !read_link(tc, at + 8, &before) || (tc->cache_count > 1 && !next && !before))
            return 0;
    }
    return tc->cache_count > 0;
}

/* Whether the first cache has its thread's id, which leads to itself. */
static int has_id(struct tcmalloc *tc)
{
    uint64_t id, self;

    return read_word(tc->heap, tc->caches[0].start + TO_ID, &id) && read_word(tc->heap, id, &self) && self == id;
}

/* Takes the objects of all caches. */
void take_caches_of_threads(struct tcmalloc *tc)
{
    const struct segment *s;

    for (size_t next = 0; (s = next_writable(tc->heap, &next));)
        look_in(tc, s);
    if (!are_linked(tc, TO_LINKS_2_16) && !(are_linked(tc, TO_LINKS) && (tc->cache_count > 1 || has_id(tc))))
        tell_odd(tc->heap, "one of %zu threads' caches leads to none, or there is none", tc->cache_count);
}
