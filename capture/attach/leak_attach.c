/* leak_attach [-d DEPTH] PID: from now on keeps the callers of each block that a running process allocates, as leak_trace does from
 * a program's start on. leak_attach --detach PID: ends that. leak_trace calls it.
 *
 * 1. All threads are stopped. One of them is made to map memory, the island.
 * 2. The first bytes of malloc and its kin become a jump to the island, from where all goes on as before, or by a gate.
 * 3. The threads go on. The first that calls malloc from the program's own code loads the library there, and that turns the jumps.
 *
 * No breakpoint is set, and nothing needs this program any more once the threads go on. */
#define _GNU_SOURCE
#include <signal.h>
#include <stdarg.h>
#include <stdio.h>
#include <stdlib.h>
#include <string.h>
#include <unistd.h>

#include "../common/escape.h"
#include "../table.h"
#include "attach.h"

enum { MOST_TEXT = 2048, USUAL_DEPTH = 8, SEARCH_MS = 10000 };

static const double USUAL_SECONDS = 10;

const char tracer_name[] = "leak_attach", what_is_not[] = "the process may be attached already: leak_trace --detach ends that";

static const char USAGE[] = "usage: leak_attach [-d DEPTH] PID | leak_attach --detach PID\n", HELP[] =
    "Records the callers of the blocks that a running process allocates from now on. leak_trace calls it.\n\n"
    "  PID       one of your processes (any process, as root); it is stopped for a moment\n"
    "  -d DEPTH  how many callers to record for each block, 1 to 32 [8]\n"
    "  --detach  stops that, and restores the process's own code\n\n"
    "status: 0; 2 with a line on standard error, and the process is unchanged\n";

static struct target target;
static bool is_searching;
static struct timespec searching_since;

/* Gives the functions their bytes back, if some of them jump while nothing is armed. */
static void undo(void)
{
    static bool is_undoing;

    if (!is_undoing)
        is_undoing = true, set_jumps(&target, false);
}

void fail(const char *format, ...)
{
    static _Thread_local char text[MOST_TEXT], line[LONGEST_ESCAPE * MOST_TEXT];
    va_list values;

    va_start(values, format);
    vsnprintf(text, sizeof text, format, values);
    va_end(values);
    leave_to_tracer(text);
    if (target.jumps && target.process.count)
        undo();
    let_go(&target.process);
    if (target.is_new)
        give_island_back(&target);
    escape_text(line, sizeof line, text);
    if (tells_first())
        dprintf(STDERR_FILENO, "leak_attach: %s\n", line);
    _exit(REFUSED);
}

/* What is looked for while the process goes on has a limit too: its memory may wait for a disk, or for itself. */
void limit_search(bool is_on)
{
    is_searching = is_on;
    clock_gettime(CLOCK_MONOTONIC, &searching_since);
}

void end_if_asked(void)
{
    if (ending_signal())
        fail("ended by signal %d", ending_signal());
    if (is_searching && milliseconds_since(searching_since) > SEARCH_MS)
        fail("process %d could not be looked at in %d s: its disk or its own memory does not answer, or it has too much",
             target.process.id, SEARCH_MS / 1000);
    end_if_overdue();
}

static long number_of(const char *word, long most)
{
    char *rest;
    long number = strtol(word, &rest, 10);

    if (number <= 0 || number > most || *rest)
        fail("'%s' is no number from 1 to %ld", word, most);
    return number;
}

int main(int count, char **words)
{
    const char *name = getenv("LEAK_TRACE"), *forks = getenv("LEAK_TRACE_FORK");
    struct settings settings = { .depth = USUAL_DEPTH, .table_name = name && *name == '/' ? name : "/dev/shm/leak_trace.%p",
                                 .are_forks_traced = forks && !strcmp(forks, "1"), .seconds = USUAL_SECONDS };
    bool ends = count == 3 && !strcmp(words[1], "--detach");

    if (!ends && count == 4 && !strcmp(words[1], "-d"))
        settings.depth = number_of(words[2], MAX_DEPTH);
    else if (!ends && (count != 2 || words[1][0] == '-')) {
        bool is_help = count == 2 && (!strcmp(words[1], "--help") || !strcmp(words[1], "-h"));
        fprintf(stderr, "%s%s", USAGE, is_help ? HELP : "");
        return REFUSED;
    }
    if (strlen(settings.table_name) >= TABLE_NAME_BYTES)
        fail("the name of the table is too long");
    target.process.id = number_of(words[count - 1], 1 << 22);
    sigset_t set = set_signals();
    leave_front(0, &set);
    open_apart();
    return ends ? detach(&target) : attach(&target, &settings);
}
