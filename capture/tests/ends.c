/* ends WAY: ends by that way, with some blocks allocated. `rights`: 25 children give up their rights, and end by _exit; `runs`: 25 run a
 * program without the environment; `rests`: a child and its parent rest. */
#define _GNU_SOURCE
#include <pthread.h>
#include <signal.h>
#include <stdio.h>
#include <sys/wait.h>
#include "lose.h"
static void *volatile held[40000];
static void *last(void *unused)
{
    usleep(50000);
    return unused;
}
static void end(const char *way)
{
    static char *none[] = { NULL }, *arguments[] = { "true", NULL };
    pthread_t thread;
    if (!strcmp(way, "exit")) exit(0);
    if (!strcmp(way, "_exit")) _exit(0);
    if (!strcmp(way, "_Exit")) _Exit(0);
    if (!strcmp(way, "quick_exit")) quick_exit(0);
    if (!strcmp(way, "thread") && !pthread_create(&thread, NULL, last, NULL)) pthread_exit(NULL);
    if (!strcmp(way, "rights")) _exit(setuid(65534) && !getuid());
    if (!strcmp(way, "runs")) execve("/bin/true", arguments, none);
    if (!strcmp(way, "signal")) raise(SIGKILL);
    if (!strcmp(way, "rests")) rest();
}
int main(int argc, char **argv)
{
    int children = argc > 2 ? atoi(argv[2]) : 0;
    for (int i = 0; i < 40000; i++) held[i] = malloc(i % 100 + 1);
    for (int i = 0; i < children; i++) {
        if (!fork()) end(argv[1]);
        if (!strcmp(argv[1], "rests")) rest();
        wait(NULL);
    }
    if (argc == 2) end(argv[1]);
    return 0;
}
