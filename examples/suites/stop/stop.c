/* A stop: LEAK_STOP is the name of one, or its number from 1 on. At that stop the process has its leaks checked, by
 * valgrind or by LeakSanitizer if it runs under these, and ends. Otherwise it writes its id to the file
 * LEAK_STOP_FILE, and waits. At others it goes on. The last stop is `exit`, after all handlers and destructors that
 * the test itself has.
 *
 * The frames of what waits are small: what a frame doesn't write is a word that the test's own functions left
 * there. */
#include <stdio.h>
#include <stdlib.h>
#include <string.h>
#include <unistd.h>
#include <valgrind/memcheck.h>

#include "stop.h"

extern int __lsan_do_recoverable_leak_check(void) __attribute__((weak));

enum { MOST_IGNORED = 4096 };

static const volatile void *ignored[MOST_IGNORED];
static int stops;

static __attribute__((noinline)) int is_wanted(const char *name)
{
    const char *wanted = getenv("LEAK_STOP");

    stops++;
    return wanted && (atoi(wanted) == stops || (name && !strcmp(name, wanted)));
}

static __attribute__((noinline)) int is_checked_by_valgrind(void)
{
    unsigned long blocks, bytes, other[6];

    if (!RUNNING_ON_VALGRIND)
        return 0;
    VALGRIND_DO_LEAK_CHECK;
    VALGRIND_COUNT_LEAK_BLOCKS(blocks, other[0], other[1], other[2]);
    VALGRIND_COUNT_LEAKS(bytes, other[3], other[4], other[5]);
    dprintf(STDERR_FILENO, "valgrind: %lu blocks %lu bytes\n", blocks, bytes);
    return 1;
}

static __attribute__((noinline)) void write_id(void)
{
    const char *path = getenv("LEAK_STOP_FILE");
    FILE *file = path ? fopen(path, "w") : NULL;

    if (!file || fprintf(file, "%d\n", getpid()) < 0 || fclose(file))
        abort();
}

static __attribute__((noinline)) void end(void)
{
    if (is_checked_by_valgrind())
        _exit(0);
    if (__lsan_do_recoverable_leak_check) {
        __lsan_do_recoverable_leak_check();
        _exit(0);
    }
    write_id();
    for (;;)
        pause();
}

/* Gives whether it is not the first stop: one test asserts that only its first check finds nothing. */
int leak_stop(const char *name)
{
    if (is_wanted(name))
        end();
    return stops > 1;
}

void leak_ignore(const volatile void *block, int is_ignored)
{
    const volatile void *wanted = is_ignored ? NULL : block;

    for (int i = 0; i < MOST_IGNORED; i++)
        if (ignored[i] == wanted) {
            ignored[i] = is_ignored ? block : NULL;
            return;
        }
    abort();
}

static void stop_at_exit(void)
{
    leak_stop("exit");
}

__attribute__((constructor(101))) static void start(void)
{
    atexit(stop_at_exit);
}
