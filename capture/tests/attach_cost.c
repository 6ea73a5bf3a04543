/* Allocates and frees all the time, through some functions, and prints each quarter of a second what a pair of
 * malloc and free cost its first thread: nanoseconds of processor time, nanoseconds by the clock, and the longest
 * time in ms that it was stopped. `attach_cost [THREADS]`. */
#include <pthread.h>
#include <stdint.h>
#include <stdio.h>
#include <stdlib.h>
#include <time.h>

enum { SLOTS = 1000, PIECE = 200, LEAST = 16, SIZES = 500 };

static const double LINE_NS = 250e6;

static double now(clockid_t clock)
{
    struct timespec time;
    clock_gettime(clock, &time);
    return time.tv_sec * 1e9 + time.tv_nsec;
}

/* Some callers. */
__attribute__((noinline)) static void *ask(size_t size)
{
    void *volatile block = malloc(size);
    return block;
}

__attribute__((noinline)) static void *ask_by_one(size_t size)
{
    void *volatile block = ask(size);
    return block;
}

__attribute__((noinline)) static void *ask_by_two(size_t size)
{
    void *volatile block = ask_by_one(size);
    return block;
}

static void work_some(void **slots, uint32_t *seed)
{
    for (int k = 0; k < PIECE; k++) {
        *seed = *seed * 1103515245 + 12345;
        uint32_t at = (*seed >> 8) % SLOTS;
        free(slots[at]);
        slots[at] = ask_by_two(LEAST + (*seed >> 4) % SIZES);
    }
}

static void *work(void *unused)
{
    static __thread void *slots[SLOTS];
    uint32_t seed = 1;
    (void)unused;
    for (;;)
        work_some(slots, &seed);
}

int main(int count, char **words)
{
    static void *slots[SLOTS];
    uint32_t seed = 2;
    pthread_t thread;
    for (int k = 1; k < (count > 1 ? atoi(words[1]) : 1); k++)
        pthread_create(&thread, NULL, work, NULL);
    puts("ready");
    for (;;) {
        double since = now(CLOCK_MONOTONIC), cpu = now(CLOCK_THREAD_CPUTIME_ID), before = since, longest = 0, at;
        long pairs = 0;
        do {
            work_some(slots, &seed);
            at = now(CLOCK_MONOTONIC);
            longest = at - before > longest ? at - before : longest;
            before = at;
            pairs += PIECE;
        } while (at - since < LINE_NS);
        printf("%.1f %.1f %.1f\n", (now(CLOCK_THREAD_CPUTIME_ID) - cpu) / pairs, (at - since) / pairs, longest / 1e6);
        fflush(stdout);
    }
}
