/* A program with three lost blocks that a search of its core doesn't name by
 * itself, since a word of memory that nobody uses any more leads to each.
 *
 * Of one the pointer stands in a block that was given back. Of the others the
 * size modulo 16 is 8, so that malloc keeps the header of the chunk after them
 * in their last bytes. Where that chunk is free, malloc's own list holds its
 * address; after the newest block it is the top of the heap, whose address
 * malloc holds too.
 *
 * As in leaky.c each block has a size and a caller of its own, it is built
 * without optimization, and the stack is wiped before the core is taken. */
#include <mcheck.h>
#include <signal.h>
#include <stdio.h>
#include <stdlib.h>
#include <unistd.h>

enum { STALE = 45, BEFORE_A_FREE_CHUNK = 56, BEFORE_THE_TOP = 72, HELD = 125, BY_BLOCK = 141,
       GIVEN_BACK = 500, GAP = 2000, PLACE = 10 };

static void **held;

/* The last pointer to a block is in another that is given back, and stays. */
static void **lose_in_freed_memory(void)
{
    void **holder = calloc(1, GIVEN_BACK);
    holder[PLACE] = calloc(1, STALE);
    return holder;
}

/* What comes after this block is given back later. */
static void *lose_before_a_gap(void)
{
    calloc(1, BEFORE_A_FREE_CHUNK);
    return malloc(GAP);
}

static void work(void)
{
    void *gap = lose_before_a_gap();
    held = calloc(1, HELD);
    held[PLACE] = calloc(1, BY_BLOCK);
    void **holder = lose_in_freed_memory();
    calloc(1, BEFORE_THE_TOP);
    free(gap);
    free(holder);
}

/* Overwrites the frames that the calls before left behind. */
static void wipe_stack(void)
{
    volatile char gone[16384];
    for (size_t i = 0; i < sizeof gone; i++)
        gone[i] = 0;
}

int main(void)
{
    mtrace();
    work();
    wipe_stack();
    fflush(NULL);
    fputs("ready\n", stderr);
    for (;;)
        pause();
}
