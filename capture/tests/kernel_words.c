/* Blocks that only the kernel leads to, one for each place, and one that is lost. Sizes are such that malloc gives no more than was
 * asked. Prints a line for what the kernel refuses, then "ready". With an argument it watches 19,900 descriptors.
 *
 * held: 1000 epoll, 1016 timer, 1032 and 1048 signals that wait, 8200 buffer of a ring, 1064 result of a ring, 16392 signal stack
 * in a pipe: 1160; lost: 1304 */
#define _GNU_SOURCE
#include <fcntl.h>
#include <linux/io_uring.h>
#include <pthread.h>
#include <signal.h>
#include <stdint.h>
#include <stdio.h>
#include <sys/epoll.h>
#include <sys/eventfd.h>
#include <sys/mman.h>
#include <sys/resource.h>
#include <sys/syscall.h>
#include <sys/uio.h>
#include <time.h>
#include "lose.h"

enum { DESCRIPTORS = 19900, ENTRIES = 2, RESULTS = 2, IN_FLIGHT = 3 };

/* A ring (io_uring_setup(2)), by bare calls. */
static struct {
    int file;
    struct io_uring_sqe *entries;
    uint32_t *tail, *mask, *array;
} ring;

static int never[2];    /* a pipe into which nobody writes */

static int refused(const char *what, int is_bad)
{
    if (is_bad)
        printf("refused: %s\n", what);
    return is_bad;
}

static void *block(size_t size)
{
    return calloc(1, size);
}

static __attribute__((noinline)) void watch(int epoll, int descriptor, size_t size)
{
    struct epoll_event event = { .events = EPOLLIN, .data.ptr = block(size) };

    refused("epoll", epoll_ctl(epoll, EPOLL_CTL_ADD, descriptor, &event));
}

static __attribute__((noinline)) void make_timer(void)
{
    struct sigevent event = { .sigev_notify = SIGEV_SIGNAL, .sigev_signo = SIGUSR1, .sigev_value.sival_ptr = block(1016) };
    timer_t timer;

    refused("timer", timer_create(CLOCK_MONOTONIC, &event, &timer));
}

static __attribute__((noinline)) void queue_signals(void)
{
    sigset_t set;

    sigemptyset(&set);
    sigaddset(&set, SIGRTMIN);
    sigaddset(&set, SIGRTMIN + 1);
    sigprocmask(SIG_BLOCK, &set, NULL);
    refused("signal", sigqueue(getpid(), SIGRTMIN, (union sigval){ .sival_ptr = block(1032) }));
    refused("signal of a thread", pthread_sigqueue(pthread_self(), SIGRTMIN + 1, (union sigval){ .sival_ptr = block(1048) }));
}

static __attribute__((noinline)) void set_stack(void)
{
    stack_t stack = { .ss_sp = block(16392), .ss_size = 16384 };

    refused("signal stack", sigaltstack(&stack, NULL));
}

static __attribute__((noinline)) void write_to_pipe(void)
{
    int ends[2];
    void *sent = block(1160);

    refused("pipe", pipe(ends) || write(ends[1], &sent, sizeof sent) != sizeof sent);
}

static int make_ring(void)
{
    struct io_uring_params about = { .flags = IORING_SETUP_CQSIZE, .cq_entries = RESULTS };

    ring.file = syscall(SYS_io_uring_setup, ENTRIES, &about);
    if (refused("ring", ring.file < 0))
        return 0;
    char *memory = mmap(NULL, about.sq_off.array + ENTRIES * sizeof(uint32_t), PROT_READ | PROT_WRITE, MAP_SHARED, ring.file,
                        IORING_OFF_SQ_RING);
    ring.entries = mmap(NULL, ENTRIES * sizeof *ring.entries, PROT_READ | PROT_WRITE, MAP_SHARED, ring.file, IORING_OFF_SQES);
    ring.tail = (uint32_t *)(memory + about.sq_off.tail);
    ring.mask = (uint32_t *)(memory + about.sq_off.ring_mask);
    ring.array = (uint32_t *)(memory + about.sq_off.array);
    return 1;
}

/* Hands the request to the kernel, and leaves none in the ring's own memory. */
static void submit(struct io_uring_sqe entry)
{
    uint32_t at = *ring.tail & *ring.mask;

    ring.entries[at] = entry;
    ring.array[at] = at;
    __atomic_store_n(ring.tail, *ring.tail + 1, __ATOMIC_RELEASE);
    refused("a ring's request", syscall(SYS_io_uring_enter, ring.file, 1, 0, 0, NULL, 0) != 1);
    memset(ring.entries + at, 0, sizeof entry);
}

static __attribute__((noinline)) void use_ring(void)
{
    static char buffer[8];
    struct iovec registered = { block(8200), 8192 };

    refused("a ring's buffer", syscall(SYS_io_uring_register, ring.file, IORING_REGISTER_BUFFERS, &registered, 1));
    for (int i = 0; i < RESULTS; i++)
        submit((struct io_uring_sqe){ .opcode = IORING_OP_NOP });
    submit((struct io_uring_sqe){ .opcode = IORING_OP_NOP, .user_data = (uintptr_t)block(1064) }); /* no room for its result */
    for (int i = 0; i < IN_FLIGHT; i++)
        submit((struct io_uring_sqe){ .opcode = IORING_OP_READ, .fd = never[0], .addr = (uintptr_t)buffer, .len = sizeof buffer });
}

static void watch_many(int epoll)
{
    struct rlimit limit;

    getrlimit(RLIMIT_NOFILE, &limit);
    limit.rlim_cur = limit.rlim_max;
    refused("many descriptors", setrlimit(RLIMIT_NOFILE, &limit));
    for (int i = 0; i < DESCRIPTORS; i++)
        watch(epoll, eventfd(0, 0), 56);
}

int main(int count, char **words)
{
    int epoll = epoll_create1(0);

    (void)words;
    if (pipe(never))
        return 1;
    if (count > 1) {
        watch_many(epoll);
    } else {
        watch(epoll, never[0], 1000);
        make_timer();
        queue_signals();
        set_stack();
        write_to_pipe();
        if (make_ring())
            use_ring();
        LOSE(block(1304));
    }
    scrub();
    puts("ready");
    fflush(stdout);
    rest();
}
