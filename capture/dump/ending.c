/* What ends a program that stops a process: signals, and no memory. */
#define _GNU_SOURCE
#include <stdlib.h>
#include <sys/prctl.h>

#include "dump.h"

static volatile sig_atomic_t asked_to_end;

static void ask_to_end(int signal)
{
    asked_to_end = signal;
}

int ending_signal(void)
{
    return asked_to_end;
}

/* Stopped itself, the program would keep the process, and a limit of the file size is a fault of a write like others. If whoever
 * called it is killed, nobody waits for its end. */
sigset_t set_signals(void)
{
    static const int ends[] = { SIGINT, SIGTERM, SIGHUP, SIGQUIT }, ignored[] = { SIGPIPE, SIGXFSZ, SIGTSTP, SIGTTIN, SIGTTOU };
    struct sigaction ask = { .sa_handler = ask_to_end };
    sigset_t set;

    sigemptyset(&set);
    for (size_t i = 0; i < sizeof ends / sizeof *ends; i++) {
        sigaction(ends[i], &ask, NULL);
        sigaddset(&set, ends[i]);
    }
    prctl(PR_SET_PDEATHSIG, SIGTERM);
    for (size_t i = 0; i < sizeof ignored / sizeof *ignored; i++)
        signal(ignored[i], SIG_IGN);
    return set;
}

void *grown(void *list, size_t count, size_t each)
{
    if (count & (count - 1))
        return list;
    list = realloc(list, (count ? 2 * count : 1) * each);
    if (!list)
        fail("no memory for a list");
    return list;
}
