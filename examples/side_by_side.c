/* A program that loses blocks which stand side by side, as an allocator other
 * than glibc's lays them: where their size is one of its own, each begins where
 * the one before ends. So a pointer to a block also is one past the end of the
 * block before.
 *
 * Of two sizes LOST blocks are lost, each with a held block on either side. 64
 * bytes fill their place. 100 don't, so nothing begins at their ends. All else
 * is held by arrays.
 *
 * It is built without optimization, and the stack is wiped before the core is
 * taken, as in leaky.c. */
#include <stdio.h>
#include <stdlib.h>
#include <unistd.h>

enum { FILLS = 64, SMALLER = 100, BLOCKS = 400, LOST = 12, NOT_SIDE_BY_SIDE = 2 };

static char *of_64[BLOCKS];
static char *of_100[BLOCKS];

/* Allocates blocks, and lists them by address. */
static void fill(char **held, size_t size)
{
    for (int i = 0; i < BLOCKS; i++) {
        char *block = calloc(1, size);
        int place = i;
        for (; place > 0 && held[place - 1] > block; place--)
            held[place] = held[place - 1];
        held[place] = block;
    }
}

/* Whether no other block of the size has room between the two. */
static int are_neighbors(const char *first, const char *second, int size)
{
    return first && second - first < 2 * size;
}

/* Loses blocks, and returns how many. */
static int lose(char **held, int size)
{
    int lost = 0;
    for (int i = 1; i + 1 < BLOCKS && lost < LOST; i++) {
        if (are_neighbors(held[i - 1], held[i], size) && are_neighbors(held[i], held[i + 1], size)) {
            held[i] = NULL;
            lost++;
        }
    }
    return lost;
}

/* Overwrites the frames that the calls before left behind. */
static void wipe_stack(void)
{
    volatile char gone[16384];
    for (size_t i = 0; i < sizeof gone; i++)
        gone[i] = 0;
}

int main(void)
{
    fill(of_64, FILLS);
    fill(of_100, SMALLER);
    if (lose(of_64, FILLS) < LOST || lose(of_100, SMALLER) < LOST)
        return NOT_SIDE_BY_SIDE;
    wipe_stack();
    fputs("ready\n", stderr);
    for (;;)
        pause();
}
