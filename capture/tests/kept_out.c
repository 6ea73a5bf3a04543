/* expect: 45 */
/* Holds a block in memory alone that is kept out of cores (MADV_DONTDUMP), and loses one. Other such memory is let in again, or
 * unmapped, as a whole, its end, and its middle. */
#define _GNU_SOURCE
#include <sys/mman.h>
#include "lose.h"
enum { PAGE = 4096 };
static char *kept_out(long pages)
{
    char *p = mmap(NULL, pages * PAGE, PROT_READ | PROT_WRITE, MAP_PRIVATE | MAP_ANONYMOUS, -1, 0);
    if (p == MAP_FAILED || madvise(p, pages * PAGE, MADV_DONTDUMP)) exit(1);
    memset(p, 1, pages * PAGE);
    return p;
}
int main(int argc, char **argv)
{
    char *p;
    *(void **)kept_out(3) = malloc(61);
    madvise(kept_out(100), 100 * PAGE, MADV_DODUMP);
    munmap(kept_out(200), 200 * PAGE);
    p = kept_out(10);
    munmap(p + 4 * PAGE, 2 * PAGE);     /* leaves 4 and 4 */
    madvise(p + 7 * PAGE, 3 * PAGE, MADV_DODUMP);   /* leaves 4 and 1 */
    p = NULL;
    LOSE(malloc(45));
    if (argc > 1 && fork()) rest();
    (void)argv;
    rest();
}
