/* Which bins of its cache a thread is just filling or flushing: its registers or the top of its stack lead to them.
 * Their items may be another thread's by now, or be only in the stack above the bin's head (cache_bin.h, tcache.c). */
#include <stdlib.h>

#include "jemalloc.h"

/* A flush has up to 200 words of its own on the stack. A function that calls none may use the bytes below it. */
enum { TOP = 8192, BELOW = 128 };

/* Threads have words of their own: a core can have no more of them than words. */
static void add_hand(struct jemalloc *je, uint64_t value, uint64_t at)
{
    if (!je->heap->places_left) {
        je->heap->steps_left = 0;
        return;
    }
    je->heap->places_left--;
    je->hands = grown(je->hands, je->hand_count, sizeof *je->hands);
    je->hands[je->hand_count++] = (struct hand){ value, at };
}

/* A register, which may have a block that is just becoming an item. */
static void add_register(struct jemalloc *je, uint64_t value, uint64_t at)
{
    uint64_t number;
    const struct slab *s = region_at(je, value, &number);
    const struct large *l = large_at(je, value);

    add_hand(je, value, at);
    if (s)
        je->is_held[s->class] = 1;
    else if (l)
        je->is_held[l->class] = 1;
}

static void add_words(struct jemalloc *je, uint64_t from, uint64_t to, void (*add)(struct jemalloc *, uint64_t, uint64_t))
{
    uint64_t value;

    for (uint64_t at = from; at < to && read_word(je->heap, at, &value); at += 8)
        add(je, value, at);
}

/* The words of a thread, and of what signals interrupted. */
static void add_thread(struct jemalloc *je, const struct thread *thread)
{
    struct moment m = moment_of(thread);

    for (size_t k = 0; k < REGISTERS; k++)
        add_register(je, thread->words[k], 0);
    do {
        add_words(je, m.saved, m.saved + 8 * m.saved_count, add_register);
        add_words(je, m.rsp - BELOW, m.rsp, add_hand);
        add_words(je, m.rsp, m.rsp + TOP, add_hand);
    } while (go_to_interrupted(je->heap, &m));
}

/* Lists the words of all threads that are inside. */
void find_hands(struct jemalloc *je)
{
    const struct core *core = je->heap->core;

    for (size_t i = 0; i < core->thread_count; i++)
        if (je->heap->is_inside[i])
            add_thread(je, core->threads + i);
    if (je->hand_count)
        qsort(je->hands, je->hand_count, sizeof *je->hands, by_start);
}

/* Whether one of them leads to these words, but for those that lie in `but`: a stack may end where the bins themselves
 * are. */
int is_in_hands(const struct jemalloc *je, struct range words, struct range but)
{
    size_t low = 0, high = je->hand_count;

    while (low < high) {
        size_t middle = low + (high - low) / 2;
        if (je->hands[middle].value < words.start)
            low = middle + 1;
        else
            high = middle;
    }
    for (; low < je->hand_count && je->hands[low].value < words.end; low++)
        if (je->hands[low].at < but.start || je->hands[low].at >= but.end)
            return 1;
    return 0;
}
