/* Start of tracing in a process that runs already: called by the gate once for each attach, in the midst of a call of malloc.
 * What library/start.c does for a program from its start on. */
#define _GNU_SOURCE
#include <errno.h>
#include <fcntl.h>
#include <pthread.h>
#include <stdio.h>
#include <stdlib.h>
#include <string.h>
#include <sys/mman.h>
#include <time.h>
#include <unistd.h>

#include "../library/trace.h"
#include "island.h"

int frees_wipe, tables_stay, execs_are_traced;
uint64_t most_megabytes;
static struct island *island;

int leak_attach_start(struct island *by);

/* leak_attach reads it where the state says that tracing failed. */
void complain(const char *what, const char *why)
{
    if (island)
        snprintf(island->error, sizeof island->error, "%.120s: %.120s", what, why ? why : strerror(errno));
}

__attribute__((destructor)) static void end(void)
{
    remove_table();
}

static void read_name(char *program)
{
    int file = open("/proc/self/comm", O_RDONLY | O_CLOEXEC);
    ssize_t bytes = file < 0 ? 0 : read(file, program, PROGRAM_BYTES - 1);

    if (file >= 0)
        shut(file);
    program[bytes > 0 ? bytes - 1 : 0] = 0;
}

/* Nothing is left of an earlier time but what leak_attach has unmapped. */
static int begin_anew(void)
{
    table = (struct table){ 0 };
    memset((void *)cell_pages.extents, 0, sizeof cell_pages.extents);
    cell_pages.full = 0;
    leaf_records.more = 0;
    page_records.more = 0;
    finder = NULL;
    if (open_finder())
        return 1;
    complain("memory", NULL);
    return 0;
}

/* The jumps lead here from now on: those that end blocks first, so that no block is freed behind the table's back which it has. */
static void turn_jumps(void)
{
    static const int order[FUNCTIONS] = { FUNCTION_free, FUNCTION_realloc, FUNCTION_dlclose, FUNCTION_calloc, FUNCTION_memalign,
        FUNCTION_aligned_alloc, FUNCTION_posix_memalign, FUNCTION_valloc, FUNCTION_pvalloc, FUNCTION_malloc };

    for (int k = 0; k < FUNCTIONS; k++)
        if (island->was[order[k]])
            __atomic_store_n(&island->target[order[k]], island->hooks[order[k]], __ATOMIC_SEQ_CST);
}

/* Tells in the head that blocks from before are in no entry, and that the island is the library's: no core by leak_core has it. What loading left on the
 * stack below this goes, so that it holds no block elsewhere. */
static void tell_begin(void)
{
    struct timespec now;
    uintptr_t stack = island->stack_end - ISLAND_STACK_BYTES, here = (uintptr_t)__builtin_frame_address(0) & -4096ul;

    clock_gettime(CLOCK_REALTIME, &now);
    table.head->began = now.tv_sec;
    snprintf(table.head->next_program, PROGRAM_BYTES, "(another program)");
    tell_own(island, ISLAND_LIBRARY);
    tell_own((void *)stack, ISLAND_STACK_BYTES);
    if (here > stack + 8192)
        advise((void *)stack, here - 8192 - stack, MADV_DONTNEED);
}

__attribute__((visibility("default"))) int leak_attach_start(struct island *by)
{
    static char program[PROGRAM_BYTES];
    static int has_handlers;

    island = by;
    forking = (_Atomic uint32_t *)&island->forking;
    program_name = program;
    table_name = island->table_name;
    most_blocks = 1 << 26;
    forks_are_traced = island->forks;
    read_name(program);
    take_calls(island);
    take_dlclose(island);
    if (!begin_anew())
        return 0;
    if (!has_handlers && pthread_atfork(before_fork, after_fork_in_parent, after_fork))
        return complain("fork", NULL), 0;
    has_handlers = 1;
    if (!open_table(island->depth))
        return 0;
    tell_begin();
    island->inside_at = (uint64_t)&inside - (uint64_t)__builtin_thread_pointer();
    island->table_path = (uint64_t)table_path;
    island->head_at = (uint64_t)&table.head;
    island->finder_at = (uint64_t)&finder;
    finder->on = 1;
    turn_jumps();
    return 1;
}
