/* Free blocks of mimalloc's pages (src/page.c, alloc.c). Each page has three lists of its blocks, and each heap one of
 * blocks of any page that another thread has freed. With those that a page says are in use, its own lists have as many
 * as were ever given; those of a heap's list are still counted as in use. The first block of a page that another thread
 * frees goes to the heap's list, and the page says so until its thread has taken it from there. */
#include "mimalloc.h"

/* Offsets in mi_page_t. */
enum { TO_FREE = 16, TO_LOCAL = 32, TO_OTHERS = 40, KINDS = 3 };
/* Low bits of the list of blocks that others freed (mi_delayed_t). */
enum { DELAYING = 1, IS_DELAYED = 2, FLAGS = 3 };

/* The page whose blocks have the address, or NULL. */
static struct mi_page *page_at(const struct mimalloc *mi, uint64_t address)
{
    size_t low = 0, high = mi->page_count;

    while (low < high) {
        size_t middle = low + (high - low) / 2;
        if (mi->pages[middle].end <= address)
            low = middle + 1;
        else
            high = middle;
    }
    return low < mi->page_count && mi->pages[low].start <= address ? mi->pages + low : NULL;
}

/* Marks the block as free. 0 if there is none, or if it was so already. */
static int take_block(struct mi_page *p, uint64_t block)
{
    uint64_t i = (block - p->start) / p->size;

    if (block < p->start || block >= p->end || (block - p->start) % p->size || (p->free[i / 8] >> i % 8 & 1))
        return 0;
    p->free[i / 8] |= 1 << i % 8;
    return 1;
}

/* Marks the blocks of a list, of the page or of any if that is NULL, and gives how many they are. */
static uint64_t take_list(struct mimalloc *mi, uint64_t block, struct mi_page *page, uint64_t place)
{
    uint64_t count = 0;

    while (block) {
        struct mi_page *p = page ? page : page_at(mi, block);
        if (!p || !take_block(p, block)) {
            tell_odd(mi->heap, "the list of free blocks at 0x%llx leads to 0x%llx", (unsigned long long)place, (unsigned long long)block);
            return count;
        }
        count++;
        p->delayed += !page;
        if (!read_word(mi->heap, block, &block))
            return count;
    }
    return count;
}

static void take_page_lists(struct mimalloc *mi, struct mi_page *p)
{
    static const uint64_t places[KINDS] = { TO_FREE, TO_LOCAL, TO_OTHERS };
    uint64_t count = 0, others = 0, block;

    for (size_t i = 0; i < KINDS; i++) {
        uint64_t found;
        if (!read_word(mi->heap, p->record + places[i], &block))
            continue;
        found = take_list(mi, places[i] == TO_OTHERS ? block & ~(uint64_t)FLAGS : block, p, p->record + places[i]);
        count += places[i] == TO_OTHERS ? 0 : found;
        others = found;
    }
    if (p->used + count != p->count || others > p->used)
        tell_odd(mi->heap, "the page at 0x%llx has %llu free blocks and %llu in use, of %llu", (unsigned long long)p->record, (unsigned long long)count,
                 (unsigned long long)p->used, (unsigned long long)p->count);
}

/* Whether the thread is inside: it takes its heap's whole list before it gives the blocks to their pages. */
static int is_at_work(struct mimalloc *mi, uint64_t thread)
{
    enum { FS_BASE = 21 };
    const struct core *core = mi->heap->core;

    take_of(mi->heap, core->thread_count);
    for (size_t i = 0; i < core->thread_count; i++)
        if (mi->heap->is_inside[i] && core->threads[i].words[FS_BASE] == thread)
            return 1;
    return 0;
}

/* A page that says so has one block in its heap's list, and another has none. */
static void check_delayed(struct mimalloc *mi, const struct mi_page *p)
{
    uint64_t others, flags;

    if (!read_word(mi->heap, p->record + TO_OTHERS, &others))
        return;
    flags = others & FLAGS;
    if ((flags == DELAYING || p->delayed != (flags == IS_DELAYED)) && !(p->delayed < 2 && is_at_work(mi, p->thread)))
        tell_odd(mi->heap, "the page at 0x%llx has %llu blocks in its heap's list, and its flags are %llu", (unsigned long long)p->record,
                 (unsigned long long)p->delayed, (unsigned long long)flags);
}

void take_lists(struct mimalloc *mi)
{
    uint64_t block;

    for (size_t i = 0; i < mi->page_count; i++)
        take_page_lists(mi, mi->pages + i);
    for (size_t i = 0; i < mi->heap_count; i++)
        if (read_word(mi->heap, mi->heaps[i].start + TO_DELAYED, &block))
            take_list(mi, block, NULL, mi->heaps[i].start + TO_DELAYED);
    for (size_t i = 0; i < mi->page_count; i++)
        check_delayed(mi, mi->pages + i);
}
