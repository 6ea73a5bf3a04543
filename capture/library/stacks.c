/* Alternate signal stacks (sigaltstack(2)). The kernel alone may have the address of one, and a core by the kernel does not tell
 * it: so the table says where they are. A bare system call is not seen. */
#define _GNU_SOURCE
#include <errno.h>
#include <signal.h>
#include <string.h>
#include <unistd.h>

#include "trace.h"

static uint64_t this_thread(void)
{
    return syscall(SYS_gettid);
}

static _Atomic uint64_t *owner_of(struct signal_stack *place)
{
    return (_Atomic uint64_t *)&place->thread;
}

/* Takes a place whose owner is this one: 0 for a free place, or a thread that ended. */
static int take(struct signal_stack *place, uint64_t owner, uint64_t thread)
{
    if (!atomic_compare_exchange_strong(owner_of(place), &owner, thread))
        return 0;
    atomic_store((_Atomic uint64_t *)&place->start, 0);
    return 1;
}

static int has_ended(uint64_t thread)
{
    int error = errno, has = thread && syscall(SYS_tgkill, getpid(), (pid_t)thread, 0) && errno == ESRCH;

    errno = error;
    return has;
}

/* A free place, or else one of a thread that ended, or NULL. */
static struct signal_stack *find_place(uint64_t thread)
{
    struct signal_stack *places = table.head->signal_stacks;

    for (int i = 0; i < MOST_SIGNAL_STACKS; i++)
        if (!atomic_load(owner_of(places + i)) && take(places + i, 0, thread))
            return places + i;
    for (int i = 0; i < MOST_SIGNAL_STACKS; i++) {
        uint64_t owner = atomic_load(owner_of(places + i));
        if (has_ended(owner) && take(places + i, owner, thread))
            return places + i;
    }
    atomic_fetch_add((_Atomic uint64_t *)&table.head->signal_stacks_missed, 1);
    return NULL;
}

/* Gives up the thread's places but this one. */
static void give_places(uint64_t thread, const struct signal_stack *kept)
{
    struct signal_stack *places = table.head->signal_stacks;

    for (int i = 0; i < MOST_SIGNAL_STACKS; i++)
        if (places + i != kept && atomic_load(owner_of(places + i)) == thread) {
            atomic_store((_Atomic uint64_t *)&places[i].start, 0);
            atomic_store(owner_of(places + i), 0);
        }
}

static struct signal_stack *note(uint64_t thread, const stack_t *stack)
{
    struct signal_stack *place = find_place(thread);

    if (!place)
        return NULL;
    place->bytes = stack->ss_size;
    atomic_store((_Atomic uint64_t *)&place->start, (uintptr_t)stack->ss_sp);
    return place;
}

/* The new stack is told before it is set, and the old one until then: whenever a core is written, the one that is set is told. */
PUBLIC int sigaltstack(const stack_t *stack, stack_t *old)
{
    int is_traced = stack && tracing() && table.head->pid == (uint64_t)getpid();
    uint64_t thread = is_traced ? this_thread() : 0;
    struct signal_stack *place = is_traced && !(stack->ss_flags & SS_DISABLE) ? note(thread, stack) : NULL;
    int error = syscall(SYS_sigaltstack, stack, old);

    if (is_traced && !error)
        give_places(thread, place);
    else if (place) {
        atomic_store((_Atomic uint64_t *)&place->start, 0);
        atomic_store(owner_of(place), 0);
    }
    return error;
}

/* In a child of fork, which has its parent's stack, by another number. */
void copy_signal_stack(void)
{
    stack_t stack;

    if (!syscall(SYS_sigaltstack, NULL, &stack) && !(stack.ss_flags & SS_DISABLE))
        note(this_thread(), &stack);
}
