/* A table that somebody makes shorter, as root can: an access to what is gone is SIGBUS. A handler then ends tracing,
 * and the process goes on.
 *
 * Any other SIGBUS is the program's: it takes the way that the program chose, and sigaction and signal show the
 * program what it set itself. Where it ignores the signal there is no handler, since only so a program that it runs
 * ignores it. */
#define _GNU_SOURCE
#include <dlfcn.h>
#include <errno.h>
#include <signal.h>
#include <string.h>
#include <unistd.h>

#include "trace.h"

static __typeof__(sigaction) *real_sigaction;
static __typeof__(signal) *real_signal;

static struct sigaction chosen[2];      /* what the program set last, and before */
static _Atomic unsigned choices;
static pid_t guarded;            /* who has the handler: a child of vfork shares this memory, but not its signals */

static struct sigaction last_choice(void)
{
    return chosen[atomic_load(&choices) % 2];
}

static void on_fault(int signal, siginfo_t *info, void *context);

/* Sets what the program chose, behind the handler. */
static int choose(const struct sigaction *action)
{
    struct sigaction guard = *action, own = *action;

    if (own.sa_sigaction == on_fault)   /* as it was given back by a call that isn't seen */
        own = (struct sigaction){ .sa_handler = SIG_DFL };
    if (own.sa_handler == SIG_DFL)
        guard = (struct sigaction){ .sa_flags = SA_ONSTACK };
    if (own.sa_handler != SIG_IGN) {
        guard.sa_sigaction = on_fault;
        guard.sa_flags = (guard.sa_flags | SA_SIGINFO) & ~SA_RESETHAND;
    }
    chosen[(atomic_load(&choices) + 1) % 2] = own;
    atomic_fetch_add(&choices, 1);
    return real_sigaction(SIGBUS, &guard, NULL);
}

/* As without this library: the access is made again, or the signal sent again, and ends the process. */
static void end_process(const siginfo_t *info)
{
    real_sigaction(SIGBUS, &(struct sigaction){ .sa_handler = SIG_DFL }, NULL);
    if (info->si_code <= 0)
        raise(SIGBUS);
}

static void hand_on(int signal, siginfo_t *info, void *context)
{
    struct sigaction action = last_choice();

    if (action.sa_flags & SA_RESETHAND)
        choose(&(struct sigaction){ .sa_handler = SIG_DFL });
    if (action.sa_handler == SIG_DFL)
        end_process(info);
    else if (action.sa_flags & SA_SIGINFO)
        action.sa_sigaction(signal, info, context);
    else if (action.sa_handler != SIG_IGN)
        action.sa_handler(signal);
}

/* Has nobody made it shorter, as far as it was read? */
int is_whole(const struct table *which)
{
    return !memcmp(which->head->magic, TABLE_MAGIC, sizeof which->head->magic);
}

static int has_address(const struct table *which, const void *address)
{
    uintptr_t at = (uintptr_t)address;

    return which->head && (at - (uintptr_t)which->head < HEAD_BYTES || is_in_area(&which->entries, at)
                           || is_in_area(&which->leaves, at));
}

/* Gives up the file, which somebody made shorter, but not the addresses: threads may be in the middle of a write. */
static int forget_table(const struct table *cut)
{
    int is_done = forget(cut->head, HEAD_BYTES);

    is_done &= forget_extents(&cut->entries);
    return is_done & forget_extents(&cut->leaves);
}

/* Ends tracing: what threads are just writing goes into memory that nobody reads. */
static int end_tracing(const struct table *cut)
{
    finder->on = 0;
    if (!forget_table(cut))
        return 0;
    if (cut == &table) {
        complain(table_path, "somebody made the table shorter");
        unlink(table_path);
    }
    return 1;
}

static void on_fault(int signal, siginfo_t *info, void *context)
{
    int error = errno;
    struct table *cut = info->si_code <= 0 ? NULL : has_address(&table, info->si_addr) ? &table
        : has_address(&parents_table, info->si_addr) ? &parents_table : NULL;

    if (!cut || !end_tracing(cut))
        hand_on(signal, info, context);
    else
        errno = error;
}

static void resolve(void)
{
    real_signal = (__typeof__(signal) *)dlsym(RTLD_NEXT, "signal");
    real_sigaction = (__typeof__(sigaction) *)dlsym(RTLD_NEXT, "sigaction");
}

/* Once there is a table. */
void guard_table(void)
{
    struct sigaction action;

    resolve();
    if (!real_sigaction || real_sigaction(SIGBUS, NULL, &action))
        return;
    choose(&action);
    guarded = getpid();
}

/* A child of fork has the handler too. */
void guard_child(void)
{
    guarded = guarded ? getpid() : 0;
}

/* In a process that is not guarded. */
static int set_unguarded(const struct sigaction *action, struct sigaction *old)
{
    int error = real_sigaction(SIGBUS, action, old);

    if (!error && old && old->sa_sigaction == on_fault)
        *old = last_choice();
    return error;
}

PUBLIC int sigaction(int number, const struct sigaction *action, struct sigaction *old)
{
    if (!real_sigaction)
        resolve();
    if (number != SIGBUS)
        return real_sigaction(number, action, old);
    if (guarded != getpid())
        return set_unguarded(action, old);
    struct sigaction before = last_choice();
    int error = action ? choose(action) : 0;
    if (!error && old)
        *old = before;
    return error;
}

PUBLIC sighandler_t signal(int number, sighandler_t handler)
{
    struct sigaction action = { .sa_handler = handler, .sa_flags = SA_RESTART }, old;

    if (!real_signal)
        resolve();
    if (number != SIGBUS)
        return real_signal(number, handler);
    sigaddset(&action.sa_mask, number);
    return sigaction(number, &action, &old) ? SIG_ERR : old.sa_handler;
}
