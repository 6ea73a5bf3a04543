/* cut MODE: says `ready`, and when a line comes in allocates and frees in four threads, says `went on`, and rests.
 * Meanwhile its table may have become shorter. `own`: a page of its own file is gone too, and calls a handler of its own.
 * `fault`: the same, which ends it, for want of a handler. `killed`: ends by kill(2). `fork`: forks before it allocates.
 * `busy`: says `ready` and goes to work. `shown`: says what it is told of SIGBUS, before it sets something and after that.
 * `ignored`: runs itself so, with the signal ignored. */
#define _GNU_SOURCE
#include <pthread.h>
#include <setjmp.h>
#include <signal.h>
#include <stdio.h>
#include <stdlib.h>
#include <string.h>
#include <sys/mman.h>
#include <sys/wait.h>
#include <unistd.h>
static sigjmp_buf back;
static void *volatile seen;
static int rounds = 1;
static void handler(int number, siginfo_t *info, void *context)
{
    (void)number, (void)context;
    seen = info->si_addr;
    siglongjmp(back, 1);
}
static void *work(void *unused)
{
    void *held[500] = { NULL };
    for (int i = 0; i < 100000 * rounds; i++) {
        free(held[i % 500]);
        held[i % 500] = malloc(i % 3000);
    }
    for (int i = 0; i < 500; i++) free(held[i]);
    return unused;
}
static void work_in_threads(void)
{
    pthread_t threads[4];
    for (int i = 0; i < 4; i++) pthread_create(threads + i, NULL, work, NULL);
    for (int i = 0; i < 4; i++) pthread_join(threads[i], NULL);
}
/* A page of a file that has become shorter. */
static char *gone(void)
{
    FILE *file = tmpfile();
    char *page = MAP_FAILED;
    if (file && !ftruncate(fileno(file), 4096))
        page = mmap(NULL, 4096, PROT_READ | PROT_WRITE, MAP_SHARED, fileno(file), 0);
    return page == MAP_FAILED || ftruncate(fileno(file), 0) ? NULL : page;
}
static const char *name_of(void *way)
{
    if (way == (void *)handler) return "own";
    return way == (void *)SIG_DFL ? "default" : way == (void *)SIG_IGN ? "ignored" : "another";
}
static void show(void)
{
    struct sigaction own = { .sa_sigaction = handler, .sa_flags = SA_SIGINFO }, old;
    sigaction(SIGBUS, NULL, &old);
    printf("%s ", name_of(old.sa_sigaction));
    sigaction(SIGBUS, &own, NULL);
    sigaction(SIGBUS, NULL, &old);
    printf("%s %d ", name_of(old.sa_sigaction), old.sa_flags == (old.sa_flags & ~SA_ONSTACK));
    printf("%s ", name_of((void *)signal(SIGBUS, SIG_IGN)));
    printf("%s ", name_of((void *)signal(SIGBUS, SIG_DFL)));
    printf("%s\n", name_of((void *)signal(SIGBUS, SIG_DFL)));
}
static void run(const char *program)
{
    signal(SIGBUS, SIG_IGN);
    execl(program, program, "shown", NULL);
}
int main(int argc, char **argv)
{
    struct sigaction own = { .sa_sigaction = handler, .sa_flags = SA_SIGINFO };
    const char *mode = argc > 1 ? argv[1] : "";
    char *volatile page = gone();
    if (!strcmp(mode, "shown")) return show(), 0;
    if (!strcmp(mode, "ignored")) run(argv[0]);
    if (!strcmp(mode, "own")) sigaction(SIGBUS, &own, NULL);
    if (!strcmp(mode, "busy")) rounds = 8;
    puts("ready");
    fflush(stdout);
    if (rounds == 1) getchar();
    if (!strcmp(mode, "fork") && !fork()) _exit((work(NULL), 0));
    work_in_threads();
    wait(NULL);
    if (!strcmp(mode, "own") && !sigsetjmp(back, 1)) *page = 1;
    if (!strcmp(mode, "fault")) *page = 1;
    if (!strcmp(mode, "killed")) kill(getpid(), SIGBUS);
    printf("went on%s\n", seen && seen == page ? ", and its own page was told" : "");
    fflush(stdout);
    for (;;) pause();
}
