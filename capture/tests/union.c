/* Blocks of which a table misses some, or tells what is no longer so. `early` asks for some at first, `late` once a line has come on standard input;
 * then `again` asks anew for a block that `early` had. What begins with __libc passes leak_trace by. Prints where the blocks are. */
#include <stdio.h>
#include "lose.h"
extern void __libc_free(void *block);
extern void *__libc_malloc(size_t size);
enum { BLOCKS = 40000 };
static void *held[2 * BLOCKS], *volatile odd, *volatile guard;
__attribute__((noinline)) void *early(size_t size) { char *volatile p = malloc(size); return p; }
__attribute__((noinline)) void *late(size_t size) { char *volatile p = malloc(size); return p; }
__attribute__((noinline)) void *again(size_t size) { char *volatile p = malloc(size); return p; }

/* A block that the table tells of what was there before. */
static void have_odd_block(void)
{
    void *was = early(1933);
    guard = early(13);
    __libc_free(was);
    odd = __libc_malloc(493);
    printf("other %p same %d\n", odd, was == odd);
}

int main(void)
{
    void *one = early(61);
    char line[8];
    have_odd_block();
    for (int i = 0; i < BLOCKS; i++)
        held[i] = early(45 + i % 64);
    printf("one %p\n", one);
    LOSE(early(77));
    fflush(stdout);
    if (read(0, line, 1) < 1)
        return 1;
    free(one);
    held[2 * BLOCKS - 1] = again(61);
    for (int i = BLOCKS; i < 2 * BLOCKS - 1; i++)
        held[i] = late(45 + i % 64);
    LOSE(late(109));
    printf("again %p\n", held[2 * BLOCKS - 1]);
    fflush(stdout);
    rest();
}
