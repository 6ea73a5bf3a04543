/* expect: 45 */
/* Runs programs as dovecot does, with its environment cleared: ways to exec, each in a child by fork, by vfork, or by posix_spawn.
 * lost WAY: itself again by that way, as `lost` with the word `again`, which loses a block and rests. */
#define _GNU_SOURCE
#include <fcntl.h>
#include <sched.h>
#include <signal.h>
#include <spawn.h>
#include <stdio.h>
#include <sys/prctl.h>
#include <sys/wait.h>
#include "lose.h"
extern char **environ;
static char *none[] = { "PATH=/usr/bin:/bin:.", NULL };
static void run(const char *way, char *self)
{
    char *arguments[] = { self, "again", NULL };
    if (!strcmp(way, "execve")) execve(self, arguments, none);
    if (!strcmp(way, "execvpe")) execvpe(self, arguments, none);
    if (!strcmp(way, "execle")) execle(self, self, "again", NULL, none);
    if (!strcmp(way, "fexecve")) fexecve(open(self, O_RDONLY | O_CLOEXEC), arguments, none);
    if (!strcmp(way, "execveat")) execveat(AT_FDCWD, self, arguments, none, 0);
    clearenv();
    if (!strcmp(way, "execv")) execv(self, arguments);
    if (!strcmp(way, "execvp")) execvp(self, arguments);
    if (!strcmp(way, "execl")) execl(self, self, "again", NULL);
    if (!strcmp(way, "execlp")) execlp(self, self, "again", NULL);
    if (!strcmp(way, "failing")) {
        execve("/nonexistent", arguments, none);
        LOSE(malloc(45));
        rest();
    }
    _exit(9);
}
int main(int argc, char **argv)
{
    char *arguments[] = { argv[0], "again", NULL };
    pid_t child = 0;
    if (argc == 2 && !strcmp(argv[1], "again")) {
        prctl(PR_SET_PDEATHSIG, SIGKILL);
        if (getenv("LEAK_TRACE_DEPTH") && strcmp(getenv("LEAK_TRACE_DEPTH"), "3")) return 8;
        LOSE(malloc(45));
        rest();
    }
    if (argc != 2) return 1;
    prctl(PR_SET_NAME, "renamed");
    if (!strcmp(argv[1], "posix_spawn")) {
        if (posix_spawn(&child, argv[0], NULL, NULL, arguments, none)) return 2;
    } else if (!strcmp(argv[1], "posix_spawnp")) {
        if (posix_spawnp(&child, argv[0], NULL, NULL, arguments, none)) return 2;
    } else if (!strcmp(argv[1], "vfork")) {
        if (!(child = vfork())) { execve("/nonexistent", arguments, none); execve(argv[0], arguments, none); _exit(9); }
    } else if (!(child = fork()))
        run(argv[1], argv[0]);
    printf("%d\n", (int)child);
    fflush(stdout);
    rest();
}
