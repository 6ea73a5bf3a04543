/* A block is moved by realloc, which `stopped.so` stops when the block is at its new place already. Both words that it
 * holds are there alone: glibc writes over the first of what it frees. */
#include "lose.h"
int main(void)
{
    void **p = malloc(200), *volatile *old = malloc(3000);
    free((void *)old);
    p[0] = malloc(45);
    p[1] = malloc(61);
    p = realloc(p, 2900);
    return p[0] != NULL;
}
