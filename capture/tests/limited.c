/* expect: 45 61 77 */
/* Sets a limit of 200 MB on its own memory (RLIMIT_AS), as vsftpd does, and takes 160 of it; so does a child. With an argument
 * the limit is what it has, with 40 MB that malloc holds for it: the table, which has blocks there too, can't grow then. */
#include <malloc.h>
#include <stdio.h>
#include <sys/resource.h>
#include <sys/wait.h>
#include "lose.h"
static void **held;
static long take(size_t size, long most)
{
    long count = 0;
    for (void **p; count < most && (p = malloc(size)); held = p, count++) *p = held;
    return count;
}
static int limit(long bytes)
{
    struct rlimit limit = { bytes, bytes };
    return setrlimit(RLIMIT_AS, &limit);
}
static int take_what_is_there(void)
{
    long pages;
    mallopt(M_TRIM_THRESHOLD, 1 << 30);
    mallopt(M_MMAP_MAX, 0);
    void *volatile all = malloc(40000000);      /* volatile: gcc would leave the pair out */
    free(all);
    FILE *f = fopen("/proc/self/statm", "r");
    if (!f || fscanf(f, "%ld", &pages) != 1 || fclose(f) || limit(pages * 4096)) return 1;
    LOSE(malloc(45));
    if (take(40, 800000) != 800000) return 2;
    for (int i = 0; i < 1000; i++) { void *p = held; held = *held; free(p); }
    if (take(40, 1000) != 1000 || malloc(50000000)) return 3;
    return 0;
}
int main(int argc, char **argv)
{
    int status;
    (void)argv;
    if (argc > 1) status = take_what_is_there();
    else {
        if (limit(200 << 20)) return 1;
        LOSE(malloc(45));
        if (take(1000000, 100) != 100 || take(1000, 60000) != 60000) return 2;
        LOSE(malloc(61));
        if (!fork()) _exit(take(100000, 100) != 100);
        if (wait(&status) < 0 || status) return 3;
        LOSE(malloc(77));
    }
    printf("status %d\n", status);
    fflush(stdout);
    rest();
}
