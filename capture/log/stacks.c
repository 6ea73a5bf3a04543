/* Alternate signal stacks by the table: leak_trace.so records them, since a core by the kernel does not tell them. A block that is
 * one is held by the kernel. So it is left out of the log: then its words count as root words, and nobody names it. */
#include <stdlib.h>

#include "log.h"

/* Whether the core has the thread. The library numbers threads as its container does. If the core does it otherwise, no thread
 * can be told from one that ended. */
static int is_there(const struct core *core, const struct table_head *head, uint64_t thread)
{
    if (core->ids.process != head->pid)
        return 1;
    for (size_t i = 0; i < core->ids.count; i++)
        if (core->ids.list[i] == thread)
            return 1;
    return 0;
}

/* The starts of the stacks that are set, and how many there are. */
static size_t find_stacks(const struct table_head *head, const struct core *core, uint64_t *starts)
{
    size_t count = 0;

    for (size_t i = 0; i < MOST_SIGNAL_STACKS; i++) {
        const struct signal_stack *stack = head->signal_stacks + i;
        if (stack->thread && stack->start && is_there(core, head, stack->thread))
            starts[count++] = stack->start;
    }
    if (count)
        qsort(starts, count, sizeof *starts, by_start);
    return count;
}

static int has_stack(const struct block *block, const uint64_t *starts, size_t count)
{
    size_t low = 0, high = count;

    while (low < high) {
        size_t middle = low + (high - low) / 2;
        if (starts[middle] < block->start)
            low = middle + 1;
        else
            high = middle;
    }
    return low < count && starts[low] - block->start < block->size;
}

/* How many of the blocks are such stacks. */
static size_t count_stacks(const struct blocks *blocks, const uint64_t *starts, size_t count)
{
    size_t found = 0;

    for (size_t i = 0; i < blocks->count; i++)
        found += has_stack(blocks->list + i, starts, count);
    return found;
}

/* Takes such blocks out of those that the log is about to tell, where the core has not each thread's stack itself. Gives how many
 * stay or are not known: one that an earlier log tells stays, for if the log ended it its words would count as freed. */
uint64_t leave_out_stacks(struct blocks *fresh, const struct blocks *all, const struct table_head *head, const struct core *core)
{
    uint64_t starts[MOST_SIGNAL_STACKS];
    size_t count, before, left = 0;

    if (!unknown_stacks(&core->stacks))
        return 0;
    count = find_stacks(head, core, starts);
    before = count_stacks(all, starts, count);
    for (size_t i = 0; i < fresh->count; i++)
        if (!has_stack(fresh->list + i, starts, count))
            fresh->list[left++] = fresh->list[i];
    uint64_t taken = fresh->count - left;
    fresh->count = left;
    return head->signal_stacks_missed + (before - taken);
}
