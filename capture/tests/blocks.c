/* blocks N [wait]: holds N blocks of 16 to 515 bytes; then forks once, and tells how long fork and the child's first call take. */
#include <stdio.h>
#include <stdlib.h>
#include <string.h>
#include <sys/wait.h>
#include <time.h>
#include <unistd.h>
static double now(void) { struct timespec t; clock_gettime(CLOCK_MONOTONIC, &t); return t.tv_sec + t.tv_nsec * 1e-9; }
int main(int argc, char **argv)
{
    long n = atol(argv[1]);
    void **held = malloc(n * sizeof *held);
    double a = now();
    unsigned x = 1;
    for (long i = 0; i < n; i++) {
        x = x * 1664525 + 1013904223;
        held[i] = malloc(16 + (x >> 8) % 500);
        memset(held[i], 1, 16);
    }
    printf("fill %.1f ns each\n", (now() - a) / n * 1e9);
    a = now();
    fflush(stdout);
    if (!fork()) { free(malloc(10)); printf("fork to the child's first call: %.1f ms\n", (now() - a) * 1e3); fflush(stdout); _exit(0); }
    wait(NULL);
    char line[200]; long rss = 0, v;
    FILE *f = fopen("/proc/self/smaps", "r");
    int table = 0;
    long table_kb = 0, finder_kb = 0, last = 0;
    while (fgets(line, sizeof line, f)) {
        if (strchr(line, '-') && strchr(line, ' ') && line[0] != ' ' && strstr(line, "-") < line + 13) table = strstr(line, "rw-s") != NULL;
        if (sscanf(line, "Rss: %ld", &v) == 1) { rss += v; last = v; if (table) table_kb += v; }
        if (!strncmp(line, "VmFlags:", 8) && strstr(line, " wf")) finder_kb += last;     /* wiped by a fork */
    }
    printf("resident: all %ld KiB, table %ld KiB (%.1f bytes a block), finder %ld KiB (%.1f bytes a block)\n", rss, table_kb, table_kb * 1024.0 / n, finder_kb, finder_kb * 1024.0 / n);
    if (argc > 2) {
        puts("waiting");
        fflush(stdout);
        pause();
    }
    return 0;
}
