/* expect: 45 */
/* Children of all kinds: none may change this process's table. */
#define _GNU_SOURCE
#include <sched.h>
#include <signal.h>
#include <spawn.h>
#include <stdio.h>
#include <sys/syscall.h>
#include <sys/wait.h>
#include "lose.h"
extern char **environ;
static void *volatile held[100];
static void churn(void)
{
    for (int i = 0; i < 100; i += 2) { free(held[i]); held[i] = NULL; }
    for (int i = 0; i < 1000; i++) LOSE(malloc(333));
}
int main(void)
{
    char *arguments[] = { "true", NULL };
    pid_t p;
    LOSE(malloc(45));
    for (int i = 0; i < 100; i++) held[i] = malloc(i * 5 + 1);
    if (!fork()) { churn(); exit(0); }
    if (!_Fork()) { churn(); exit(0); }
    if (!syscall(SYS_clone, SIGCHLD, 0, 0, 0, 0)) { churn(); _exit(0); }
    if (!(p = vfork())) { execvp("true", arguments); _exit(1); }
    posix_spawnp(&p, "true", NULL, NULL, arguments, environ);
    if (system("exit 3") != 3 << 8) return 1;
    FILE *f = popen("echo hello", "r");
    char line[20];
    if (!f || !fgets(line, sizeof line, f) || strcmp(line, "hello\n")) return 2;
    pclose(f);
    while (wait(NULL) > 0) ;
    rest();
}
