/* A child of fork gets a table of its own, with the blocks that were live when it was forked. */
#define _GNU_SOURCE
#include <errno.h>
#include <stdio.h>
#include <string.h>
#include <sys/mman.h>

#include "trace.h"

int forks_are_traced;
struct table parents_table;
_Atomic uint32_t *forking;
static __thread uint64_t fork_stamp;    /* when this thread began to fork; 0: untraced */

void before_fork(void)
{
    if (forking)
        atomic_fetch_add(forking, 1);
    fork_stamp = tracing() ? __builtin_ia32_rdtsc() : 0;
}

void after_fork_in_parent(void)
{
    if (forking)
        atomic_fetch_sub(forking, 1);
}

/* Says in the table of a parent that a child of it runs untraced. */
void tell_untraced(struct table_head *head, uint64_t pid, const char *program)
{
    uint64_t place = atomic_fetch_add((_Atomic uint64_t *)&head->untraced_count, 1);
    struct untraced *child = &head->untraced[place % MOST_UNTRACED];

    snprintf(child->program, sizeof child->program, "%s", program);
    child->pid = pid;
}

/* Copies the parent's entries from before the fork. The parent may go on meanwhile: an entry that it takes
 * out or writes anew is left out, and what it mapped since the fork is not mapped here. */
static void copy_entries(const struct table *old)
{
    uint64_t copy[ENTRY_CALLERS + MAX_DEPTH];

    for (uint64_t i = 0; i < old->head->used && atomic_load(&old->entries.extents[extent_of(i, ENTRY_BITS)]); i++) {
        _Atomic uint64_t *word = (_Atomic uint64_t *)record_at(&old->entries, i, ENTRY_BITS, old->entries.bytes);
        uint64_t start = atomic_load(word);
        for (size_t k = 0; k < old->words; k++)
            copy[k] = ~atomic_load(word + k);
        if (start & ENTRY_HELD && copy[ENTRY_STAMP] < fork_stamp && atomic_load(word) == start
            && ~atomic_load(word + ENTRY_STAMP) == copy[ENTRY_STAMP])
            insert(~start, copy[ENTRY_SIZE], copy[ENTRY_STAMP], copy + ENTRY_CALLERS, old->words - ENTRY_CALLERS);
    }
}

/* The child's memory is kept out of cores as its parent's. */
static void copy_kept_out(const struct table_head *old)
{
    table.head->keeps_out = old->keeps_out;
    table.head->kept_out_missed = old->kept_out_missed;
    memcpy(table.head->kept_out, old->kept_out, sizeof old->kept_out);
}

/* Makes the child's table, of which its parent's must have been whole. */
static int copy_table(void)
{
    if (!open_table(parents_table.words - ENTRY_CALLERS))
        return 0;
    copy_entries(&parents_table);
    copy_kept_out(parents_table.head);
    copy_signal_stack();
    if (is_whole(&parents_table))
        return 1;
    unlink(table_path);
    return 0;
}

/* In the child, whose heap is as it was at the fork and whose finder is zero. */
void after_fork(void)
{
    int error = errno;

    if (forking)
        atomic_store(forking, 0);
    if (!fork_stamp)
        return;
    guard_child();
    parents_table = table;
    if (forks_are_traced && copy_table())
        finder->on = 1;
    else if (forks_are_traced)
        tell_untraced(parents_table.head, getpid(), program_name);
    close_table(&parents_table);
    parents_table = (struct table){ 0 };
    if (!tracing())
        table = parents_table;
    errno = error;
}
