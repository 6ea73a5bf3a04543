/* A program of which a core is taken more than once while it runs, so that two
 * of its cores can be searched as a pair.
 *
 * It hands messages on through a pipe, as event loops do: what is written is
 * the pointer. While a message is in the pipe, nothing in the process points to
 * it, and a search of one core names it. It is in flight, and not lost.
 *
 * As in leaky.c each block has a size and a caller of its own, it is built
 * without optimization, and the stack is wiped before each core. */
#include <mcheck.h>
#include <signal.h>
#include <stdio.h>
#include <stdlib.h>
#include <unistd.h>

struct message { struct message *next; };

enum { LOST = 45, FIRST_SENT = 61, DROPPED = 77, SECOND_SENT = 93, LOST_LATER = 109, HELD = 125,
       BY_BLOCK = 141 };

struct message *received, *held, *dropped;
static int channel[2];
static sigset_t go_on;

static void send_message(struct message *message)
{
    if (write(channel[1], &message, sizeof message) != sizeof message)
        abort();
}

static void receive_message(void)
{
    struct message *message;
    if (read(channel[0], &message, sizeof message) != sizeof message)
        abort();
    message->next = received;
    received = message;
}

/* What there is at the first core: a lost block, a block that a global holds,
 * one that this block holds, one that is dropped later, and one in the pipe. */
static void work_before_the_first(void)
{
    calloc(1, LOST);
    held = calloc(1, HELD);
    held->next = calloc(1, BY_BLOCK);
    dropped = calloc(1, DROPPED);
    send_message(calloc(1, FIRST_SENT));
}

/* Until the second core: the message arrives, the last pointer to a block goes,
 * a new block is lost, and a new one is in the pipe. */
static void work_before_the_second(void)
{
    receive_message();
    dropped = NULL;
    calloc(1, LOST_LATER);
    send_message(calloc(1, SECOND_SENT));
}

/* Overwrites the frames that the calls before left behind. */
static void wipe_stack(void)
{
    volatile char gone[16384];
    for (size_t i = 0; i < sizeof gone; i++)
        gone[i] = 0;
}

/* Stands still until it is told to go on, with all of its log in the file.
 * Tracing goes on, so the log is flushed and not closed: muntrace() and a new
 * mtrace() would begin the file anew. */
static void stand_still(void)
{
    int number;
    wipe_stack();
    fflush(NULL);
    fputs("ready\n", stderr);
    sigwait(&go_on, &number);
}

int main(void)
{
    sigemptyset(&go_on);
    sigaddset(&go_on, SIGUSR1);
    sigprocmask(SIG_BLOCK, &go_on, NULL);
    if (pipe(channel) != 0)
        abort();
    mtrace();
    work_before_the_first();
    stand_still();
    work_before_the_second();
    stand_still();
    receive_message();
    stand_still();
    return 0;
}
