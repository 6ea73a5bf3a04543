/* expect: 29 45 61 77 93 */
/* Loses a structure that known() makes of two blocks of other(), and two by themselves. */
#include "lose.h"
struct known { void *first, *second; char rest[13]; };
__attribute__((noinline)) void *other(unsigned long size)
{
    char *block = calloc(1, size);
    if (block) block[9] = 'x';
    return block;
}
__attribute__((noinline)) struct known *known(unsigned long first, unsigned long second)
{
    struct known *it = calloc(1, sizeof *it - 3);
    if (!it) abort();
    it->first = other(first);
    it->second = other(second);
    return it;
}
int main(void)
{
    LOSE(known(45, 61));
    LOSE(other(77));
    LOSE(other(93));
    rest();
}
