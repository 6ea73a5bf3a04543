/* expect: 1048576 */
/* Loses a block with a mapping of its own, and holds the address at which the mapping ends and the next may begin. */
#include <malloc.h>
#include "lose.h"

static void *volatile next;

static __attribute__((noinline)) void *lose_block(void)
{
    char *block = calloc(1, 1 << 20);

    return block + malloc_usable_size(block);
}

int main(void)
{
    next = lose_block();
    rest();
}
