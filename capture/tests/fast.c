/* expect: 24 */
/* Loses a block in whose last bytes a free chunk begins to which the head of one of malloc's fast bins leads. */
#include "lose.h"

enum { COUNT = 24, CACHED = 7, LOST = 10 };

static void *volatile held[COUNT];

static void give_back(int i)
{
    free(held[i]);
    held[i] = NULL;
}

int main(void)
{
    for (int i = 0; i < COUNT; i++)
        held[i] = calloc(1, 24);
    for (int i = 0; i < CACHED; i++)
        give_back(i);
    give_back(LOST + 1);        /* the thread's cache is full, so it comes into a fast bin */
    held[LOST] = NULL;
    rest();
}
