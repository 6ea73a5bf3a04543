/* Programs that are hard to attach, each of which allocates all the time. At SIGUSR1 some do what they could not have
 * done before, and say `done`.
 *   tls FILE..    loads files until there is no room for thread-local memory that is static
 *   bind FILE     loads a file that finds its symbols in itself first, and has it lose blocks from SIGUSR1 on; `done`
 *                 after ENOUGH of them
 *   data FILE..   maps files as data
 *   space FILE    loads the file into a namespace of its own, at SIGUSR1
 *   drops         is nobody from then on, at SIGUSR1
 *   lent          goes on on a stack that it made, at SIGUSR1
 *   changes       changes the seventh byte of valloc, at SIGUSR1
 *   deep          has an address among malloc's first instructions far up its stack, as one to which a handler returns
 *   sharer        shares its memory with a process
 *   named NAME    has that name */
#define _GNU_SOURCE
#include <dlfcn.h>
#include <fcntl.h>
#include <sched.h>
#include <signal.h>
#include <stdint.h>
#include <stdio.h>
#include <sys/mman.h>
#include <sys/prctl.h>
#include <sys/stat.h>
#include <ucontext.h>
#include "lose.h"

enum { STACK = 1 << 20, DEPTH = 1 << 20, NAP = 1000, ENOUGH = 100 };

static volatile sig_atomic_t is_asked;
static void (*lose)(void);

static void ask(int signal) { is_asked = signal; }

static void say(const char *word)
{
    puts(word);
    fflush(stdout);
}

/* Allocates until it is asked, if it may be. */
static void work(int ends)
{
    int lost = 0;

    while (!ends || !is_asked) {
        void *volatile block = malloc(100);
        free(block);
        if (lose && is_asked) {
            lose();
            if (++lost == ENOUGH)
                say("done");
        }
        usleep(NAP);
    }
    is_asked = 0;
}

static void load_all(char **files)
{
    for (; *files; files++)
        if (!dlopen(*files, RTLD_NOW))
            fprintf(stderr, "%s\n", dlerror());
}

static void map_all(char **files)
{
    struct stat about;
    for (; *files; files++) {
        int file = open(*files, O_RDONLY);
        if (file < 0 || fstat(file, &about) || mmap(NULL, about.st_size, PROT_READ, MAP_PRIVATE, file, 0) == MAP_FAILED)
            perror(*files);
    }
}

static void work_on(void)
{
    say("done");
    work(0);
}

static void change_code(void)
{
    char *at = (char *)&valloc;
    void *page = (void *)((uintptr_t)at & -4096);
    if (mprotect(page, 8192, PROT_READ | PROT_WRITE | PROT_EXEC))
        perror("mprotect");
    at[6] ^= 1;
    mprotect(page, 8192, PROT_READ | PROT_EXEC);
    say("done");
}

static void lend_stack(void)
{
    static ucontext_t here, there;
    getcontext(&there);
    there.uc_stack.ss_sp = mmap(NULL, STACK, PROT_READ | PROT_WRITE, MAP_PRIVATE | MAP_ANONYMOUS, -1, 0);
    there.uc_stack.ss_size = STACK;
    makecontext(&there, work_on, 0);
    swapcontext(&here, &there);
}

__attribute__((noinline)) static void go_deep(void)
{
    volatile uintptr_t returns_to[2] = { (uintptr_t)&malloc + 4, 0 };
    volatile char room[DEPTH];
    room[0] = 1;
    scrub();        /* below it there is room for a call */
    say("ready");
    work(0);
    returns_to[1] = room[0] + returns_to[0];
}

static int wait_forever(void *unused)
{
    (void)unused;
    while (1)
        pause();
    return 0;
}

int main(int count, char **words)
{
    const char *kind = count > 1 ? words[1] : "";
    signal(SIGUSR1, ask);
    if (!strcmp(kind, "tls"))
        load_all(words + 2);
    else if (!strcmp(kind, "bind"))
        lose = (void (*)(void))dlsym(dlopen(words[2], RTLD_NOW | RTLD_DEEPBIND), "module_work");
    else if (!strcmp(kind, "data"))
        map_all(words + 2);
    else if (!strcmp(kind, "named"))
        prctl(PR_SET_NAME, words[2]);
    else if (!strcmp(kind, "sharer"))
        clone(wait_forever, (char *)malloc(STACK) + STACK, CLONE_VM | SIGCHLD, NULL);
    if (!strcmp(kind, "deep"))
        go_deep();
    say("ready");
    work(strcmp(kind, "bind"));
    if (!strcmp(kind, "space"))
        say(dlmopen(LM_ID_NEWLM, words[2], RTLD_NOW) ? "done" : dlerror());
    if (!strcmp(kind, "changes"))
        change_code();
    if (!strcmp(kind, "drops"))
        say(setgid(65534) || setuid(65534) ? "no" : "done");
    if (!strcmp(kind, "lent"))
        lend_stack();
    work(0);
}
