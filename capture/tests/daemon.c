/* expect: 45 61 77 */
/* A daemon: loses a block, forks, loses one, forks again, closes all descriptors, loses a third. */
#define _GNU_SOURCE
#include "lose.h"
#include <fcntl.h>
static void *volatile held[1000];
int main(void)
{
    LOSE(malloc(45));
    for (int i = 0; i < 1000; i++) held[i] = malloc(100 + i);
    for (int i = 0; i < 500; i++) { free(held[i]); held[i] = NULL; }
    if (fork()) { for (int i = 500; i < 1000; i++) free(held[i]); exit(0); }
    LOSE(malloc(61));
    setsid();
    if (fork()) _exit(0);
    for (int i = 0; i < 1024; i++) close(i);
    open("/dev/null", O_RDWR); dup(0); dup(0);
    if (chdir("/")) return 1;
    for (int i = 0; i < 500; i++) held[i] = malloc(3000);   /* the table must grow without a descriptor */
    for (int i = 0; i < 20000; i++) { void **p = malloc(20); p[0] = held[0]; held[0] = p; }
    LOSE(malloc(77));
    rest();
}
