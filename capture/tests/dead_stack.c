/* dead_stack MODE: loses blocks of 333 bytes, whose addresses stay below a stack pointer, and holds blocks of 1000
 * bytes and more in a way that is usual for the mode. Says `ready N`, where N blocks are lost, and waits. */
#define _GNU_SOURCE
#include <alloca.h>
#include <poll.h>
#include <pthread.h>
#include <sched.h>
#include <signal.h>
#include <stdio.h>
#include <stdlib.h>
#include <string.h>
#include <sys/mman.h>
#include <ucontext.h>
#include <unistd.h>

#define SHARED (CLONE_VM | CLONE_FS | CLONE_FILES | CLONE_SIGHAND | CLONE_THREAD | CLONE_SYSVSEM)

enum { LOST = 333, HELD = 1000, STACK = 65536, SHALLOW = 20000, DEEP = 200000, COROUTINES = 50, ENDED = 8,
       CROWD = 1000, SMALL = 8192, LIVE = 64 << 20 };

volatile int ready;
static int lost;

static void say(int count)
{
    printf("ready %d\n", count);
    fflush(stdout);
}

static void wait_here(void)
{
    __atomic_add_fetch(&ready, 1, __ATOMIC_SEQ_CST);
    for (;;)
        poll(NULL, 0, -1);
}

static __attribute__((noinline)) void forget(int count)
{
    void *volatile kept[8];

    for (int i = 0; i < count; i++)
        kept[i] = malloc(LOST);
    (void)kept[0];
}

/* Leaves the addresses of lost blocks that many bytes below. */
static __attribute__((noinline)) void lose(int count, size_t below)
{
    volatile char *pad = alloca(below);

    pad[0] = pad[below - 1] = 0;
    forget(count);
    __atomic_add_fetch(&lost, count, __ATOMIC_SEQ_CST);
}

/* Frames that hold a block each, and then the last. */
static __attribute__((noinline)) void hold(int frames, void (*last)(void))
{
    void *volatile block = malloc(HELD + frames);
    volatile char pad[300];

    pad[0] = 0;
    if (frames)
        hold(frames - 1, last);
    else
        last();
    (void)block, (void)pad;
}

static void say_and_wait(void)
{
    say(lost);
    wait_here();
}

static void *lose_and_hold(void *unused)
{
    lose(3, SHALLOW);
    hold(5, wait_here);
    return unused;
}

/* A handler on an alternate stack that is an array of a frame: the frames that it interrupts lie below it. */
static void (*at_signal)(void);
static void handle(int number)
{
    void *volatile block = malloc(HELD + number);

    at_signal();
    (void)block;
}

static void raise_it(void)
{
    raise(SIGUSR1);
}

static __attribute__((noinline)) void be_interrupted(void)
{
    char array[STACK];
    stack_t stack = { .ss_sp = array, .ss_size = sizeof array };
    struct sigaction action = { .sa_handler = handle, .sa_flags = SA_ONSTACK };

    memset(array, 0xff, sizeof array);      /* the kernel leaves the padding in its frame as it was */
    __asm__ volatile("" : : "r"(array) : "memory");
    sigaltstack(&stack, NULL);
    sigaction(SIGUSR1, &action, NULL);
    hold(5, raise_it);
    __asm__ volatile("" : : "r"(array) : "memory");
}

static void *lose_and_raise(void *unused)
{
    lose(3, DEEP);
    be_interrupted();
    return unused;
}

/* Coroutines in one mapping, of which the last waits. */
static ucontext_t first, coroutine[COROUTINES];
static void resumed(int i)
{
    void *volatile block = malloc(HELD + i);

    if (i == COROUTINES - 1)
        hold(5, say_and_wait);
    swapcontext(coroutine + i, &first);
    (void)block;
}

static void start_coroutines(char *memory)
{
    for (int i = 0; i < COROUTINES; i++) {
        getcontext(coroutine + i);
        coroutine[i].uc_stack.ss_sp = memory + (size_t)i * STACK;
        coroutine[i].uc_stack.ss_size = STACK;
        makecontext(coroutine + i, (void (*)(void))resumed, 1, i);
        swapcontext(&first, coroutine + i);
    }
}

/* Keeps the block in the red zone alone: spin runs, enter is in a system call of its own, and leave_it calls the C
 * library, which ends the zone. */
void *spin(void *block);
void *enter(void *block);
void *leave_it(void *block);
__asm__(".text\n"
        "clear: xor %eax, %eax\n xor %edx, %edx\n xor %esi, %esi\n xor %edi, %edi\n xor %ecx, %ecx\n xor %r8d, %r8d\n"
        "xor %r9d, %r9d\n xor %r10d, %r10d\n xor %r11d, %r11d\n jmp *%rbx\n"
        "spin: lea 1f(%rip), %rbx\n mov %rdi, -120(%rsp)\n jmp clear\n"
        "1: xor %ebx, %ebx\n lock incl ready(%rip)\n 2: pause\n jmp 2b\n"
        "enter: lea 1f(%rip), %rbx\n mov %rdi, -120(%rsp)\n jmp clear\n"
        "1: xor %ebx, %ebx\n lock incl ready(%rip)\n 2: mov $34, %eax\n syscall\n jmp 2b\n"       /* pause(2) */
        "leave_it: lea 1f(%rip), %rbx\n mov $-400, %rcx\n"
        "3: mov %rdi, -64(%rsp, %rcx)\n add $8, %rcx\n jnz 3b\n jmp clear\n"
        "1: xor %ebx, %ebx\n lock incl ready(%rip)\n 2: jmp *pause@GOTPCREL(%rip)\n");

static void *in_red_zone(void *function)
{
    return ((void *(*)(void *))function)(malloc(function == leave_it ? LOST : HELD));
}

/* Another thread on an array of a frame, by clone(2). */
static int wait_on_array(void *unused)
{
    (void)unused;
    wait_here();
    return 0;
}

static __attribute__((noinline)) void clone_on_array(void)
{
    char array[STACK] __attribute__((aligned(16)));

    clone(wait_on_array, array + sizeof array, SHARED, NULL);
    while (!ready)
        usleep(1000);
    hold(5, say_and_wait);
    __asm__ volatile("" : : "r"(array) : "memory");
}

/* A thousand threads at the deep end of one large stack, all of which lives for each of them. */
static __attribute__((noinline)) void crowd(void)
{
    volatile char *live = alloca(LIVE);
    char *stacks = alloca(CROWD * SMALL);

    for (size_t i = 0; i < LIVE; i += 4096)
        live[i] = 1;
    for (int i = 0; i < CROWD; i++) {
        char *top = (char *)((unsigned long)(stacks + (i + 1) * SMALL) & -16ul);
        clone(wait_on_array, top, SHARED, NULL);
    }
    hold(5, wait_here);
    __asm__ volatile("" : : "r"(stacks) : "memory");
}

static void *be_crowd(void *unused)
{
    crowd();
    return unused;
}

/* Threads that end while others run, so that each has a stack of its own. */
static void *volatile held[ENDED][5];
static int holds;
static pthread_barrier_t all;
static void *end(void *number)
{
    int n = (long)number;

    if (!holds)
        lose(5, SHALLOW);
    for (int i = 0; holds && i < 5; i++)
        held[n][i] = malloc(HELD + i);
    pthread_barrier_wait(&all);
    return malloc(HELD);
}

static void *volatile results[ENDED];
static void end_threads(void)
{
    pthread_t threads[ENDED];
    void *result;

    pthread_barrier_init(&all, NULL, ENDED);
    for (long i = 0; i < ENDED; i++)
        pthread_create(threads + i, NULL, end, (void *)i);
    for (int i = 0; i < ENDED - 1; i++) {
        pthread_join(threads[i], &result);
        results[i] = result;
    }
    usleep(300000);     /* the last is not joined: its result is in its record alone */
}

static void start_threads(int count, void *(*function)(void *), void *argument, char *stacks)
{
    pthread_attr_t how;
    pthread_t thread;

    pthread_attr_init(&how);
    if (function == be_crowd)
        pthread_attr_setstacksize(&how, 2 * LIVE);
    for (int i = 0; i < count; i++) {
        if (stacks)
            pthread_attr_setstack(&how, stacks + (size_t)i * STACK, STACK);
        pthread_create(&thread, &how, function, argument);
    }
}

static void start(const char *mode)
{
    if (!strcmp(mode, "first"))
        lose(5, SHALLOW), hold(5, say_and_wait);
    else if (!strcmp(mode, "threads"))
        start_threads(4, lose_and_hold, NULL, NULL);
    else if (!strcmp(mode, "signal"))
        at_signal = wait_here, start_threads(1, lose_and_raise, NULL, NULL);
    else if (!strcmp(mode, "first_signal"))
        at_signal = say_and_wait, lose_and_raise(NULL);
    else if (!strcmp(mode, "heap"))
        start_threads(1, lose_and_hold, NULL, aligned_alloc(4096, STACK)),
            start_threads(3, lose_and_hold, NULL, aligned_alloc(4096, 3 * STACK));
    else if (!strcmp(mode, "coroutines"))
        start_coroutines(mmap(NULL, COROUTINES * STACK, PROT_READ | PROT_WRITE, MAP_PRIVATE | MAP_ANONYMOUS, -1, 0));
    else if (!strcmp(mode, "spin") || !strcmp(mode, "enter"))
        start_threads(1, in_red_zone, *mode == 's' ? spin : enter, NULL);
    else if (!strcmp(mode, "leave"))
        lost = 1, start_threads(1, in_red_zone, leave_it, NULL);
    else if (!strcmp(mode, "array"))
        clone_on_array();
    else if (!strcmp(mode, "crowd"))
        start_threads(1, be_crowd, NULL, NULL);
    else
        holds = !strcmp(mode, "ended_hold"), end_threads();
}

int main(int count, char **words)
{
    const char *mode = count > 1 ? words[1] : "";
    int threads = !strcmp(mode, "threads") || !strcmp(mode, "heap") ? 4 : strncmp(mode, "ended", 5) != 0;

    threads += !strcmp(mode, "crowd") ? CROWD : 0;
    start(mode);
    while (ready < threads)
        usleep(1000);
    usleep(100000);
    say(lost);
    for (;;)
        poll(NULL, 0, -1);
}
