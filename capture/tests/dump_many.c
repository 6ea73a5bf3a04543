/* Processes that are hard to dump, for leak_core. Each prints `ready` when it is as its name says. */
#define _GNU_SOURCE
#include <pthread.h>
#include <signal.h>
#include <stdint.h>
#include <stdio.h>
#include <stdlib.h>
#include <string.h>
#include <sys/mman.h>
#include <sys/prctl.h>
#include <sys/wait.h>
#include <unistd.h>

enum { PAGE = 4096, THREADS = 64, STARTERS = 4, SIGNALS = 2000 };

static volatile sig_atomic_t taken;

static void ready(void)
{
    printf("ready\n");
    fflush(stdout);
}

static void *map(size_t bytes, int protection)
{
    void *memory = mmap(NULL, bytes, protection, MAP_PRIVATE | MAP_ANONYMOUS | MAP_NORESERVE, -1, 0);

    return memory == MAP_FAILED ? perror("mmap"), exit(1), NULL : memory;
}

static void *rest(void *unused)
{
    free(malloc(1000));
    for (;;)
        pause();
    return unused;
}

static void many_threads(void)
{
    pthread_t thread;

    for (int i = 0; i < THREADS; i++)
        pthread_create(&thread, NULL, rest, NULL);
    sleep(1);
}

/* Eight terabytes, of which three pages were touched. */
static void sparse(void)
{
    const size_t bytes = 8ull << 40;
    char *memory = map(bytes, PROT_READ | PROT_WRITE);

    for (int i = 0; i < 3; i++) {
        uint64_t *word = (uint64_t *)(memory + i * (bytes / 3));
        *word = 0x1122334455667788;
        printf("word %p\n", (void *)word);
    }
}

/* Pages in turn writable and not: each is a mapping of its own. */
static void mappings(int count)
{
    char *memory = map((size_t)count * PAGE, PROT_READ | PROT_WRITE);

    memset(memory, 1, (size_t)count * PAGE);
    for (int i = 0; i < count; i += 2)
        if (mprotect(memory + (size_t)i * PAGE, PAGE, PROT_READ))
            perror("mprotect"), exit(1);
}

/* Every second page of one mapping was touched. */
static void pieces(int count)
{
    char *memory = map((size_t)count * 2 * PAGE, PROT_READ | PROT_WRITE);

    for (int i = 0; i < count; i++)
        memory[(size_t)i * 2 * PAGE] = 1;
}

static void *brief(void *unused)
{
    free(malloc(100));
    return unused;
}

/* Detached from the start: in pthread_detach glibc may read a thread that has just ended (its bug 19951). */
static void *start_others(void *unused)
{
    pthread_attr_t detached;
    pthread_t thread;

    pthread_attr_init(&detached);
    pthread_attr_setdetachstate(&detached, PTHREAD_CREATE_DETACHED);
    for (;;)
        pthread_create(&thread, &detached, brief, NULL);
    return unused;
}

static void storm(void)
{
    pthread_t thread;

    for (int i = 0; i < STARTERS; i++)
        pthread_create(&thread, NULL, start_others, NULL);
}

static void take(int number)
{
    (void)number;
    taken++;
}

/* Signals that queue, SIGNALS of them, and more until the file `enough` is there. */
static void send_signals(volatile int *sent)
{
    prctl(PR_SET_PDEATHSIG, SIGKILL);
    for (; *sent < SIGNALS || access("enough", F_OK); ++*sent) {
        while (sigqueue(getppid(), SIGRTMIN, (union sigval){ .sival_int = *sent }))
            usleep(1000);
        usleep(500);
    }
    _exit(0);
}

/* The process counts those that it takes. */
static void signals(void)
{
    volatile int *sent = mmap(NULL, PAGE, PROT_READ | PROT_WRITE, MAP_SHARED | MAP_ANONYMOUS, -1, 0);

    signal(SIGRTMIN, take);
    pid_t child = fork();
    if (!child)
        send_signals(sent);
    ready();
    while (waitpid(child, NULL, 0) != child)
        continue;
    printf("sent %d taken %d\n", *sent, (int)taken);
    exit(0);
}

/* Until its child is killed, a parent by vfork waits where no tracer can stop it. The child says that it is so. */
static void held_by_vfork(void)
{
    if (!vfork()) {
        prctl(PR_SET_PDEATHSIG, SIGKILL);
        ready();
        pause();
        _exit(0);
    }
    wait(NULL);
    printf("went on\n");
    exit(0);
}

/* The first thread has ended; others go on. */
static void headless(void)
{
    pthread_t thread;

    pthread_create(&thread, NULL, rest, NULL);
    ready();
    pthread_exit(NULL);
}

int main(int count, char **words)
{
    int number = count > 2 ? atoi(words[2]) : 0;
    const char *kind = count > 1 ? words[1] : "";

    if (!strcmp(kind, "threads")) many_threads();
    if (!strcmp(kind, "sparse")) sparse();
    if (!strcmp(kind, "mappings")) mappings(number);
    if (!strcmp(kind, "pieces")) pieces(number);
    if (!strcmp(kind, "storm")) storm();
    if (!strcmp(kind, "signals")) signals();
    if (!strcmp(kind, "vfork")) held_by_vfork();
    if (!strcmp(kind, "headless")) headless();
    ready();
    for (;;)
        pause();
}
