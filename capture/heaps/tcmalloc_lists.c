/* Free objects of tcmalloc: in lists of their spans, in the central lists' caches, and in threads' caches
 * (src/central_freelist.h, thread_cache.h). Each list has its length somewhere. */
#include "tcmalloc.h"

enum { CENTRAL_BYTES = 1216, TO_SPAN_COUNT = 112, TO_FREE_COUNT = 120, TO_SLOTS = 128, TO_USED = 1152,
       MOST_SLOTS = 64 };

static struct objects *objects_at(const struct tcmalloc *tc, uint64_t address)
{
    size_t low = 0, high = tc->object_count;

    while (low < high) {
        size_t middle = low + (high - low) / 2;
        if (tc->objects[middle].end <= address)
            low = middle + 1;
        else
            high = middle;
    }
    return low < tc->object_count && tc->objects[low].start <= address ? tc->objects + low : NULL;
}

/* Marks the object as free. 0 if there is none of the class, or if it was so already. */
static int take_object(struct tcmalloc *tc, uint64_t object, unsigned class)
{
    struct objects *o = objects_at(tc, object);
    uint64_t i = o ? (object - o->start) / o->size : 0;

    if (!o || o->class != class || (object - o->start) % o->size || i >= o->count || (o->free[i / 8] >> i % 8 & 1))
        return 0;
    o->free[i / 8] |= 1 << i % 8;
    return 1;
}

/* Marks the objects of a list, and gives how many they are, and the last. */
uint64_t take_list(struct tcmalloc *tc, uint64_t object, unsigned class, uint64_t *last)
{
    uint64_t count = 0;

    for (*last = 0; object; count++) {
        if (!take_object(tc, object, class)) {
            tell_odd(tc->heap, "a list of free objects of class %u leads to 0x%llx", class, (unsigned long long)object);
            return count;
        }
        *last = object;
        if (!read_word(tc->heap, object, &object))
            return count;
    }
    return count;
}

static void take_own_list(struct tcmalloc *tc, const struct objects *o)
{
    uint64_t list, bits, count, last;

    if (!read_word(tc->heap, o->span + 32, &list) || !read_word(tc->heap, o->span + 40, &bits))
        return;
    count = take_list(tc, list, o->class, &last);
    tc->free_of[o->class] += count;
    if (count + (bits & UINT16_MAX) != o->count)
        tell_odd(tc->heap, "the span at 0x%llx has %llu free objects of %llu, and counts %llu in use", (unsigned long long)o->span,
                 (unsigned long long)count, (unsigned long long)o->count, (unsigned long long)(bits & UINT16_MAX));
}

/* Whether a central list counts the spans and the objects of their lists that there are. */
static int has_counts(struct tcmalloc *tc, uint64_t at, unsigned class)
{
    uint64_t spans, free;

    return read_word(tc->heap, at + TO_SPAN_COUNT, &spans) && read_word(tc->heap, at + TO_FREE_COUNT, &free)
        && spans == tc->spans_of[class] && free == tc->free_of[class];
}

/* A central list's cache has chains, each as long as what moves at once. A thread that has the list's lock may just be
 * counting: the chains are right then. */
static void take_central(struct tcmalloc *tc, unsigned class)
{
    uint64_t at = tc->central + CENTRAL_BYTES * class, used, head, tail, last;
    int is_known = read_word(tc->heap, at + TO_USED, &used) && (used &= UINT32_MAX) <= MOST_SLOTS;

    if (!has_counts(tc, at, class) || !is_known)
        tell_odd(tc->heap, "the central list at 0x%llx counts other spans or objects than there are",
                 (unsigned long long)at);
    for (uint64_t i = 0; is_known && i < used; i++)
        if (!read_word(tc->heap, at + TO_SLOTS + 16 * i, &head)
            || !read_word(tc->heap, at + TO_SLOTS + 16 * i + 8, &tail)
            || take_list(tc, head, class, &last) != tc->moved_of[class] || last != tail)
            tell_odd(tc->heap, "the central list at 0x%llx has a chain of another length, number %llu",
                     (unsigned long long)at, (unsigned long long)i);
}

void take_object_lists(struct tcmalloc *tc)
{
    for (size_t i = 0; i < tc->object_count; i++)
        take_own_list(tc, tc->objects + i);
    for (unsigned i = 1; i < tc->classes; i++)
        take_central(tc, i);
    add_unused(tc->heap, tc->central, tc->central + CENTRAL_BYTES * tc->classes);
}
