/* Threads with alternate signal stacks that only the kernel leads to. Prints a line for each, its number, the stack's address and what
 * the thread does, then "ready", and for SIGUSR1 what was unusual.
 *
 * kernel_threads states: one thread for each way to wait, and one that counts without end, with all its registers in use.
 * kernel_threads N: N threads, each in pause(). kernel_threads top: one, with a mapping at the end of the memory of programs.
 * kernel_threads fork: a child of fork, which has its parent's. Its number is the last line's.
 * kernel_threads ended N: N that set a stack, lost it and ended, and one that is there.
 * kernel_threads seccomp: two, of which the first is killed with the process if it calls sigaltstack. */
#define _GNU_SOURCE
#include <errno.h>
#include <linux/audit.h>
#include <linux/filter.h>
#include <linux/futex.h>
#include <linux/seccomp.h>
#include <poll.h>
#include <pthread.h>
#include <signal.h>
#include <stddef.h>
#include <stdint.h>
#include <stdio.h>
#include <sys/mman.h>
#include <sys/prctl.h>
#include <sys/syscall.h>
#include <sys/wait.h>
#include <time.h>
#include "lose.h"

enum { STACK_BYTES = 8192, THREAD_STACK = 128 << 10, TOP_BYTES = 8192, LOOKS = 100 };

static int never[2];
static volatile int waits_that_ended, registers_that_changed;
static volatile unsigned long turns;
static pthread_barrier_t barrier;

static __attribute__((noinline)) void set_stack(const char *what)
{
    stack_t stack = { .ss_sp = calloc(1, STACK_BYTES), .ss_size = STACK_BYTES };

    if (sigaltstack(&stack, NULL))
        perror("sigaltstack");
    printf("%ld %p %s\n", syscall(SYS_gettid), stack.ss_sp, what);
}

static int wait_in(const char *how)
{
    static int word;
    sigset_t all;
    char byte;

    sigfillset(&all);
    if (!strcmp(how, "pause"))
        return pause();
    if (!strcmp(how, "sigsuspend"))
        return sigsuspend(&all);
    if (!strcmp(how, "nanosleep"))
        return nanosleep(&(struct timespec){ 100000, 0 }, NULL);
    if (!strcmp(how, "read"))
        return read(never[0], &byte, 1);
    if (!strcmp(how, "poll"))
        return poll(&(struct pollfd){ never[0], POLLIN, 0 }, 1, -1);
    return syscall(SYS_futex, &word, FUTEX_WAIT, 0, NULL, NULL, 0);
}

/* Counts, and looks whether a register of each kind is as it was. */
static void count(void)
{
    for (;; turns++) {
        uint64_t sum, wide, was = 0x1122334455667788;
        __asm__ volatile("movq %2, %%xmm5\n\tmov $0x1234567, %%r15\n\tmov $0x77, %%rcx\n\tmov $0x99, %%r11\n\tmov $300, %%eax\n"
                         "1:\tdec %%eax\n\tjnz 1b\n\tmov %%r15, %0\n\tadd %%rcx, %0\n\tadd %%r11, %0\n\tmovq %%xmm5, %1"
                         : "=&r"(sum), "=&r"(wide) : "r"(was) : "rax", "rcx", "r11", "r15", "xmm5");
        registers_that_changed += sum != 0x1234567 + 0x77 + 0x99 || wide != was;
    }
}

static void *work(void *how)
{
    sigset_t all;

    set_stack(how);
    sigfillset(&all);
    pthread_sigmask(SIG_BLOCK, &all, NULL);
    scrub();
    pthread_barrier_wait(&barrier);
    if (!strcmp(how, "count"))
        count();
    for (;;) {
        wait_in(how);
        waits_that_ended++;
    }
    return NULL;
}

static void start(const char **how, int number)
{
    pthread_attr_t attributes;
    pthread_t thread;

    pthread_attr_init(&attributes);
    pthread_attr_setstacksize(&attributes, THREAD_STACK);
    pthread_barrier_init(&barrier, NULL, number + 1);
    for (int i = 0; i < number; i++)
        if (pthread_create(&thread, &attributes, work, (void *)how[i]))
            exit(1);
    pthread_barrier_wait(&barrier);
}

static void start_many(int number)
{
    static const char **volatile how;

    how = malloc(number * sizeof *how);
    for (int i = 0; i < number; i++)
        how[i] = "pause";
    start((const char **)how, number);
}

/* Another thread first, since the filter is of this thread alone. */
static void filter_calls(void)
{
    struct sock_filter filter[] = {
        BPF_STMT(BPF_LD | BPF_W | BPF_ABS, offsetof(struct seccomp_data, nr)),
        BPF_JUMP(BPF_JMP | BPF_JEQ | BPF_K, SYS_sigaltstack, 0, 1),
        BPF_STMT(BPF_RET, SECCOMP_RET_KILL_PROCESS),
        BPF_STMT(BPF_RET, SECCOMP_RET_ALLOW),
    };
    struct sock_fprog program = { sizeof filter / sizeof *filter, filter };

    start((const char *[]){ "pause" }, 1);
    set_stack("seccomp");
    if (prctl(PR_SET_NO_NEW_PRIVS, 1, 0, 0, 0) || prctl(PR_SET_SECCOMP, SECCOMP_MODE_FILTER, &program))
        printf("refused\n");
}

static void map_top(void)
{
    char *end = (char *)((1ul << 47) - 4096);

    if (mmap(end - TOP_BYTES, TOP_BYTES, PROT_READ | PROT_WRITE, MAP_PRIVATE | MAP_ANONYMOUS | MAP_FIXED_NOREPLACE, -1, 0) == MAP_FAILED)
        printf("refused\n");
    start_many(1);
}

static void fork_with_stack(void)
{
    int child, status;

    set_stack("main");
    fflush(stdout);
    child = fork();
    if (child > 0) {
        waitpid(child, &status, 0);
        exit(0);
    }
    printf("%d\n", getpid());
}

static void *set_and_end(void *unused)
{
    set_stack("ended");
    scrub();
    return unused;
}

static void end_with_stacks(int number)
{
    pthread_t thread;

    for (int i = 0; i < number; i++)
        if (pthread_create(&thread, NULL, set_and_end, NULL) || pthread_join(thread, NULL))
            exit(1);
    start_many(1);
}

int main(int count, char **words)
{
    static const char *states[] = { "pause", "sigsuspend", "nanosleep", "read", "poll", "futex", "count" };
    sigset_t asked;
    int signal;

    sigemptyset(&asked);
    sigaddset(&asked, SIGUSR1);
    pthread_sigmask(SIG_BLOCK, &asked, NULL);
    if (count < 2 || pipe(never))
        return 2;
    if (!strcmp(words[1], "states"))
        start(states, sizeof states / sizeof *states);
    else if (!strcmp(words[1], "seccomp"))
        filter_calls();
    else if (!strcmp(words[1], "top"))
        map_top();
    else if (!strcmp(words[1], "fork"))
        fork_with_stack();
    else if (!strcmp(words[1], "ended"))
        end_with_stacks(count > 2 ? atoi(words[2]) : 1);
    else
        start_many(atoi(words[1]));
    scrub();
    puts("ready");
    for (;;) {
        fflush(stdout);
        while (sigwait(&asked, &signal))
            ;
        unsigned long before = turns;
        for (int i = 0; i < LOOKS && (!i || turns == before); i++)  /* it may have to wait for a processor */
            nanosleep(&(struct timespec){ 0, 300000000 }, NULL);
        printf("ended %d changed %d %s\n", waits_that_ended, registers_that_changed, turns == before ? "stands" : "counts");
    }
}
