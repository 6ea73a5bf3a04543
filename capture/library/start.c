/* Start and end of a traced process, and its settings:
 *
 * LEAK_TRACE           the table's file, in which %p is the pid (else ".PID" is appended)
 * LEAK_TRACE_DEPTH     how many callers a block has, 1 to 32 (default 1)
 * LEAK_TRACE_BLOCKS    for how many live blocks there is room (default 64 Mi)
 * LEAK_TRACE_FORK      0: a child of fork is not traced
 * LEAK_TRACE_WIPE      1: a block is set to 0 before it is freed, so that no stale word in it hides a leak
 * LEAK_TRACE_KEEP      1: the table stays if the process ends by itself
 * LEAK_TRACE_EXEC      1: these variables and LD_PRELOAD are handed on to programs that are run without them
 * LEAK_TRACE_LIMIT     how many megabytes all tables of a folder may take (default a quarter of its file system) */
#define _GNU_SOURCE
#include <errno.h>
#include <pthread.h>
#include <stdio.h>
#include <stdlib.h>
#include <string.h>
#include <sys/stat.h>
#include <sys/syscall.h>
#include <unistd.h>

#include "trace.h"

int frees_wipe, tables_stay, execs_are_traced;
uint64_t most_megabytes;
static struct stat first_error;

/* Says in one line why there is no table, or by errno if `why` is null. Standard error is written to only while it is the
 * file that it was at the start: a daemon may have put a connection, or its data, in that place. */
void complain(const char *what, const char *why)
{
    struct stat error;
    char line[200];

    if (fstat(2, &error) || error.st_dev != first_error.st_dev || error.st_ino != first_error.st_ino)
        return;
    int bytes = snprintf(line, sizeof line, "leak_trace: %d: %.100s: %s; not traced\n", (int)getpid(), what,
                         why ? why : strerror(errno));
    if (write(2, line, bytes) < 0)
        return;
}

static const char *setting(char **environment, const char *key, const char *otherwise)
{
    size_t length = strlen(key);

    for (; *environment; environment++)
        if (!strncmp(*environment, key, length) && (*environment)[length] == '=')
            return *environment + length + 1;
    return otherwise;
}

static int is_set(char **environment, const char *key)
{
    return !strcmp(setting(environment, key, "0"), "1");
}

/* A copy for good: the program may write over its arguments and its environment. */
static const char *kept(const char *text, char *into, size_t bytes)
{
    return strncpy(into, text, bytes - 1);
}

/* The library is linked with -z initfirst, so this comes before the constructors of all others, libc's too.
 * `environ` is not there yet, and a dlopen in here would leave it empty for good. */
__attribute__((constructor)) static void start(int count, char **arguments, char **environment)
{
    static char name[4000], program[PROGRAM_BYTES];
    size_t callers = strtoul(setting(environment, "LEAK_TRACE_DEPTH", "1"), NULL, 10);
    size_t blocks = strtoul(setting(environment, "LEAK_TRACE_BLOCKS", "67108864"), NULL, 10);

    most_blocks = blocks < LEAST_BLOCKS ? LEAST_BLOCKS : blocks > MOST_BLOCKS ? MOST_BLOCKS : blocks;
    table_name = kept(setting(environment, "LEAK_TRACE", "/dev/shm/leak_trace.%p"), name, sizeof name);
    program_name = kept(count > 0 ? arguments[0] : "", program, sizeof program);
    forks_are_traced = strcmp(setting(environment, "LEAK_TRACE_FORK", "1"), "0");
    fstat(2, &first_error);
    frees_wipe = is_set(environment, "LEAK_TRACE_WIPE");
    tables_stay = is_set(environment, "LEAK_TRACE_KEEP");
    execs_are_traced = is_set(environment, "LEAK_TRACE_EXEC");
    most_megabytes = strtoull(setting(environment, "LEAK_TRACE_LIMIT", "0"), NULL, 10);
    keep_variables(environment);
    at_quick_exit(remove_table);
    callers = callers < 1 ? 1 : callers > MAX_DEPTH ? MAX_DEPTH : callers;
    if (!open_finder())
        complain("memory", NULL);
    else if (!pthread_atfork(before_fork, NULL, after_fork) && open_table(callers)) {
        guard_table();
        finder->on = 1;
    }
}

__attribute__((destructor)) static void end(void)
{
    remove_table();
}

/* The same of a process that passes the destructors by. */
PUBLIC void _exit(int status)
{
    remove_table();
    for (;;)
        syscall(SYS_exit_group, status);
}

PUBLIC void _Exit(int status)
{
    _exit(status);
}
