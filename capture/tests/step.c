/* step: runs itself one instruction at a time, and looks at the table after each.
 *
 * The stepped process takes its blocks from the allocator below, which keeps the truth: `taken`, set as the last thing
 * that its malloc does with a place and cleared as the first thing that its free does; and `held`, the blocks that the
 * program has.  After each instruction (1) what the table has is taken, with its size, (2) what is held is in the
 * table once, and (3) a block that realloc has is in the table, or is said to be moving: else its words would count as
 * freed memory.  The program's memory at that moment is what a core would show. */
#define _GNU_SOURCE
#include <fcntl.h>
#include <stdint.h>
#include <stdio.h>
#include <stdlib.h>
#include <string.h>
#include <sys/mman.h>
#include <sys/ptrace.h>
#include <sys/wait.h>
#include <unistd.h>
#include "../table.h"
enum { PLACES = 256, PLACE = 256, HELD = 8, ROUNDS = 400 };
struct truth { char places[PLACES][PLACE]; uint64_t taken[PLACES], base; struct { uint64_t start, size; } held[HELD]; int moving; };
#ifdef ALLOCATOR
static struct truth *truth;
static void make(void)
{
    int fd = open("truth", O_RDWR);
    truth = mmap(NULL, sizeof *truth, PROT_READ | PROT_WRITE, MAP_SHARED, fd, 0);
    close(fd);
    truth->base = (uintptr_t)truth;
}
void *malloc(size_t n)
{
    if (!truth) make();
    for (int i = 0; i < PLACES && n < PLACE; i++)
        if (!truth->taken[i]) { truth->taken[i] = n + 1; return truth->places[i]; }
    return NULL;
}
void free(void *p) { if (p) truth->taken[((char *)p - truth->places[0]) / PLACE] = 0; }
void *calloc(size_t k, size_t n) { void *p = malloc(k * n); return p ? memset(p, 0, k * n) : p; }
void *realloc(void *p, size_t n)
{
    void *q = malloc(n);
    if (q) free(p);
    return q;
}
#else
static struct truth *map_truth(void)
{
    int fd = open("truth", O_RDWR | O_CREAT, 0600);
    if (ftruncate(fd, sizeof(struct truth))) exit(1);
    void *t = mmap(NULL, sizeof(struct truth), PROT_READ | PROT_WRITE, MAP_SHARED, fd, 0);
    close(fd);
    return t;
}
static int stepped(void)
{
    struct truth *t = map_truth();
    unsigned x = 3;
    raise(SIGSTOP);
    for (int i = 0; i < ROUNDS; i++) {
        x = x * 1664525 + 1013904223;
        int k = (x >> 20) % HELD;
        size_t n = i % 9 ? (x >> 8) % 200 : 5000;   /* the last fails */
        void *p = (void *)t->held[k].start;
        size_t old = t->held[k].size;
        t->held[k].start = 0;
        __asm__ volatile("" ::: "memory");
        if (x & 0x40000000 && p) {
            t->moving = 1;
            __asm__ volatile("" ::: "memory");
            void *q = realloc(p, n);
            __asm__ volatile("" ::: "memory");
            t->moving = 0;
            if (!q) q = p, n = old;
            p = q;
        } else {
            free(p);
            p = malloc(n);
        }
        t->held[k].size = n;
        __asm__ volatile("" ::: "memory");
        t->held[k].start = (uintptr_t)p;
    }
    return 0;
}
int main(int argc, char **argv)
{
    long steps = 0, seen = 0;
    int status, fd;
    char name[100];
    if (argc > 1) return stepped();
    unlink("truth");
    struct truth *t = map_truth();
    pid_t p = fork();
    if (!p) { ptrace(PTRACE_TRACEME, 0, 0, 0); setenv("LD_PRELOAD", "./leak_trace.so:./truth.so", 1); setenv("LEAK_TRACE", "step.%p", 1); execl(argv[0], "step", "stepped", NULL); _exit(1); }
    while (waitpid(p, &status, 0) == p && WIFSTOPPED(status) && WSTOPSIG(status) != SIGSTOP)
        ptrace(PTRACE_CONT, p, 0, 0);
    snprintf(name, sizeof name, "step.%d", (int)p);
    fd = open(name, O_RDONLY);
    struct table_head *h = mmap(NULL, 1 << 20, PROT_READ, MAP_SHARED, fd, 0);
    if (h == MAP_FAILED) return perror(name), 1;
    uint64_t words = ENTRY_CALLERS + h->depth;
    for (;; steps++) {
        ptrace(PTRACE_SINGLESTEP, p, 0, 0);
        if (waitpid(p, &status, 0) != p || !WIFSTOPPED(status)) break;
        int held = t->moving, there = 0;
        for (uint64_t i = 0; i < h->used; i++) {
            volatile uint64_t *e = (uint64_t *)((char *)h + HEAD_BYTES) + i * words;
            there += e[0] != 0;
            if (!(e[0] & ENTRY_HELD)) continue;
            seen++;
            uint64_t place = (~e[0] - t->base) / PLACE;
            if (~e[0] < t->base || place >= PLACES || (t->base + place * PLACE) != ~e[0] || t->taken[place] != ~e[1] + 1)
                return printf("step %ld: the table has what is not taken: %#lx %lu\n", steps, (long)~e[0], (long)~e[1]), 1;
        }
        for (int k = 0; k < HELD; k++) {
            int times = 0;
            for (uint64_t i = 0; i < h->used && t->held[k].start; i++) {
                volatile uint64_t *e = (uint64_t *)((char *)h + HEAD_BYTES) + i * words;
                times += e[0] == ~t->held[k].start && e[1] == ~t->held[k].size;
            }
            held += t->held[k].start != 0;
            if (t->held[k].start && times != 1)
                return printf("step %ld: a held block is %d times in the table\n", steps, times), 1;
        }
        if (there < held)
            return printf("step %ld: a block that realloc has is not there\n", steps), 1;
    }
    printf("%ld instructions, %ld entries looked at, none wrong\n", steps, seen);
    return !(WIFEXITED(status) && !WEXITSTATUS(status));
}
#endif
