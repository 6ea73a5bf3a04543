/* A program of more mappings than the header of a core file can number: 70,000
 * pages, each a mapping of its own, since each second one is read-only. A core
 * of it has extended numbering: the number of its program headers stands in a
 * section header.
 *
 * One block is lost. Another is held by the last of these pages alone, or, with
 * the word "drops", by nothing any more. As in leaky.c each block has a size
 * and a caller of its own, it is built without optimization, and the stack is
 * wiped before the program dies. */
#define _GNU_SOURCE
#include <mcheck.h>
#include <stdio.h>
#include <stdlib.h>
#include <string.h>
#include <sys/mman.h>

enum { PAGES = 70000, PAGE = 4096, LOST = 45, BY_LAST_PAGE = 141, FENCE = 221 };

static void lose_a_block(void)
{
    calloc(1, LOST);
}

static void fail(const char *what)
{
    perror(what);
    exit(1);
}

/* Maps the pages one behind another, and gives the last, which can be written.
 * Each is written once: the kernel dumps no page that was never touched. */
static void **map_pages(void)
{
    char *from = mmap(NULL, (size_t)PAGES * PAGE, PROT_NONE,
                      MAP_PRIVATE | MAP_ANONYMOUS | MAP_NORESERVE, -1, 0);
    void **page = NULL;
    if (from == MAP_FAILED)
        fail("address space");
    for (size_t i = 0; i < PAGES; i++) {
        page = mmap(from + i * PAGE, PAGE, PROT_READ | PROT_WRITE,
                    MAP_PRIVATE | MAP_ANONYMOUS | MAP_FIXED, -1, 0);
        if (page == MAP_FAILED)
            fail("a page (is vm.max_map_count above 70,100?)");
        *(size_t *)page = 1;
        if (i % 2 == 0 && mprotect(page, PAGE, PROT_READ) != 0)
            fail("a read-only page (is vm.max_map_count above 70,100?)");
    }
    return page;
}

/* Has the last page hold a block. */
static void hold_by_the_last_page(void **last, int drops)
{
    *last = calloc(1, BY_LAST_PAGE);
    if (drops)
        *last = NULL;
}

/* Overwrites the frames that the calls before left behind. */
static void wipe_stack(void)
{
    volatile char gone[16384];
    for (size_t i = 0; i < sizeof gone; i++)
        gone[i] = 0;
}

int main(int argc, char **argv)
{
    int drops = argc > 1 && strcmp(argv[1], "drops") == 0;
    void **last = map_pages();
    mtrace();
    lose_a_block();
    hold_by_the_last_page(last, drops);
    void *volatile fence = calloc(1, FENCE);
    wipe_stack();
    muntrace(); /* closes the log, so that all of it is in the file */
    if (argc > 1 && strcmp(argv[argc - 1], "waits") == 0) {
        fputs("ready\n", stderr);
        for (;;)
            __asm__ volatile("syscall" : : "a"(34 /* pause */) : "rcx", "r11", "memory");
    }
    abort();
    return fence != NULL;
}
