/* A program that holds blocks by memory that it may not write any more, to be
 * looked at in a core file.
 *
 * One block is held by a page that is made read-only once it is filled, as a
 * table of a configuration; one by a page without rights, as around what nobody
 * is to read. Both pages are in a core by the kernel. A search takes words of
 * writable memory alone, and names both; with --all-memory it names the lost
 * one only. As in leaky.c each block has a size and a caller of its own, it is
 * built without optimization, and the stack is wiped before the program
 * stops. */
#include <mcheck.h>
#include <stdio.h>
#include <stdlib.h>
#include <string.h>
#include <sys/mman.h>
#include <unistd.h>

enum { LOST = 45, BY_READ_ONLY = 61, BY_NO_RIGHTS = 77, FENCE = 93, PAGE = 4096 };

/* One block, and nothing points to it. */
static void lose_a_block(void)
{
    calloc(1, LOST);
}

/* A page for the pointer, which then has these rights. */
static void protect(void *block, int rights)
{
    void **page = mmap(NULL, PAGE, PROT_READ | PROT_WRITE, MAP_PRIVATE | MAP_ANONYMOUS, -1, 0);
    if (page == MAP_FAILED)
        abort();
    *page = block;
    if (mprotect(page, PAGE, rights) != 0)
        abort();
}

static void hold_by_read_only(void)
{
    protect(calloc(1, BY_READ_ONLY), PROT_READ);
}

static void hold_by_no_rights(void)
{
    protect(calloc(1, BY_NO_RIGHTS), PROT_NONE);
}

/* Overwrites the frames that the calls before left behind. */
static void wipe_stack(void)
{
    volatile char gone[16384];
    for (size_t i = 0; i < sizeof gone; i++)
        gone[i] = 0;
}

/* Clears the registers that a call may have left a pointer in, and stops for
 * good: it dies, or waits. */
static void stop(int dies)
{
    wipe_stack();
    if (dies)
        __asm__ volatile("xor %%ebx, %%ebx\n\txor %%r12d, %%r12d\n\tud2" : : : "rbx", "r12");
    for (;;)
        pause();
}

int main(int argc, char **argv)
{
    int dies = argc > 1 && strcmp(argv[1], "dies") == 0;
    mtrace();
    lose_a_block();
    hold_by_read_only();
    hold_by_no_rights();
    void *volatile fence = calloc(1, FENCE);
    wipe_stack();
    muntrace(); /* closes the log, so that all of it is in the file */
    fputs("ready\n", stderr);
    stop(dies);
    return fence == NULL;
}
