/* Threads that allocate in all ways, a fixed number of times, and check what their blocks have; besides a signal's
 * handler that allocates, children by fork, programs by posix_spawn (vfork), files by dlopen, and short threads.
 * What it prints depends on the seed alone. `attached THREADS ROUNDS [signals] [children] [spawns] [modules]
 * [passes]`: with passes, again and again until there is a file named end. */
#include <dlfcn.h>
#include <pthread.h>
#include <signal.h>
#include <spawn.h>
#include <stdint.h>
#include <stdio.h>
#include <sys/time.h>
#include <sys/wait.h>
#include "lose.h"
enum { SLOTS = 64, MOST = 6000 };
static unsigned long rounds;
static int has_children, has_spawns, has_modules;
extern char **environ;
static volatile sig_atomic_t handled;

static uint32_t next(uint32_t *seed) { return (*seed = *seed * 1103515245 + 12345) >> 8; }

/* Asks for a block, by one of several calls. */
static unsigned char *ask(uint32_t how, size_t size, unsigned char *old)
{
    void *block = NULL;
    if (how % 5 == 0)
        return realloc(old, size);
    free(old);
    switch (how % 5) {
    case 1: return malloc(size);
    case 2: return calloc(3, size / 3 + 1);
    case 3: return posix_memalign(&block, 64, size) ? NULL : block;
    default: return aligned_alloc(32, (size + 31) & ~(size_t)31);
    }
}

static void *short_thread(void *sum)
{
    char *volatile text = strdup("a thread that ends at once");
    *(unsigned long *)sum += strlen(text);
    free(text);
    return NULL;
}

/* What a child does with its blocks is its status. */
static int child(unsigned char **slots, const size_t *sizes)
{
    unsigned char sum = 0;
    for (int i = 0; i < SLOTS; i++) {
        for (size_t k = 0; slots[i] && k < sizes[i]; k++)
            sum += slots[i][k];
        slots[i] = realloc(slots[i], 1 + i);
    }
    _exit(sum);
}

static unsigned long spawn(void)
{
    char *words[] = { "true", NULL };
    pid_t pid;
    int status = -1;
    if (!posix_spawnp(&pid, "true", NULL, NULL, words, environ))
        waitpid(pid, &status, 0);
    return status;
}

static unsigned long load(void)
{
    void *library = dlopen("libm.so.6", RTLD_NOW | RTLD_LOCAL);
    int is_there = library && dlsym(library, "cos");
    return is_there + 2 * !dlclose(library);
}

static unsigned long once(uint32_t *seed, unsigned char **slots, size_t *sizes, unsigned long k)
{
    uint32_t at = next(seed) % SLOTS, how = next(seed), size = 1 + next(seed) % MOST;
    unsigned long sum = 0;
    int status;
    for (size_t i = 0; slots[at] && i < sizes[at]; i++)
        sum += slots[at][i];
    slots[at] = ask(how, size, slots[at]);
    memset(slots[at], (int)(how & 255), size);
    sizes[at] = size;
    if (k % 500 == 7) {
        pthread_t thread;
        pthread_create(&thread, NULL, short_thread, &sum);
        pthread_join(thread, NULL);
    }
    if (has_children && k % 2000 == 11) {
        pid_t pid = fork();
        if (!pid)
            child(slots, sizes);
        waitpid(pid, &status, 0);
        sum += WIFEXITED(status) ? WEXITSTATUS(status) : 100000;
    }
    if (has_spawns && k % 2000 == 13)
        sum += spawn();
    if (has_modules && k % 100 == 17)
        sum += load();
    return sum;
}

static void *work(void *number)
{
    static unsigned long sums[64];
    uint32_t seed = 1 + (uint32_t)(uintptr_t)number;
    unsigned char *slots[SLOTS] = { NULL };
    size_t sizes[SLOTS] = { 0 };
    unsigned long *sum = sums + (uintptr_t)number;
    *sum = 0;
    for (unsigned long k = 0; k < rounds; k++)
        *sum = *sum * 31 + once(&seed, slots, sizes, k);
    for (int i = 0; i < SLOTS; i++)
        free(slots[i]);
    return sum;
}

/* It comes within malloc too, where a program may not allocate: so it does by its own mark only. */
static void handle(int signal)
{
    handled += signal != 0;
}

static void *take_signals(void *unused)
{
    sigset_t set;
    int signal;
    (void)unused;
    sigemptyset(&set);
    sigaddset(&set, SIGUSR1);
    while (!sigwait(&set, &signal))
        free(malloc(100));
    return NULL;
}

/* A line of the sums of all threads, or a line for each. */
static void pass(size_t threads, const char *end)
{
    pthread_t list[64];
    for (size_t i = 0; i < threads; i++)
        pthread_create(list + i, NULL, work, (void *)i);
    for (size_t i = 0; i < threads; i++) {
        void *sum;
        pthread_join(list[i], &sum);
        printf("%zu %lu%s", i, *(unsigned long *)sum, i + 1 < threads ? end : "\n");
    }
    fflush(stdout);
}

static void begin_signals(void)
{
    struct itimerval often = { { 0, 2000 }, { 0, 2000 } };
    pthread_t other;
    signal(SIGALRM, handle);
    setitimer(ITIMER_REAL, &often, NULL);
    pthread_create(&other, NULL, take_signals, NULL);
}

int main(int count, char **words)
{
    size_t threads = strtoul(words[1], NULL, 10);
    int has_passes = 0;
    rounds = strtoul(words[2], NULL, 10);
    for (int i = 3; i < count; i++) {
        has_children |= !strcmp(words[i], "children");
        has_spawns |= !strcmp(words[i], "spawns");
        has_modules |= !strcmp(words[i], "modules");
        has_passes |= !strcmp(words[i], "passes");
        if (!strcmp(words[i], "signals"))
            begin_signals();
    }
    if (!has_passes)
        puts("ready");
    fflush(stdout);
    do
        pass(threads, has_passes ? " " : "\n");
    while (has_passes && access("end", F_OK));
    return 7;
}
