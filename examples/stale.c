/* A leak that a stale word hides: the only pointer to the block of 45 bytes stands on the stack, where a function that has
   returned left it. Nothing overwrites it, so the block counts as held; `leak_find why` tells by what.

   With mtrace, as examples/run.sh runs it: it says that it is ready, and waits to be dumped. */
#include <mcheck.h>
#include <stdio.h>
#include <stdlib.h>
#include <unistd.h>

/* Takes a block, keeps a pointer to it in its own frame, and returns: the block is lost. */
static __attribute__((noinline)) void lose(void)
{
    char *volatile here[64];
    here[32] = malloc(45);
    (void)here[32];
}

/* Goes deeper than the frame of lose() was, without writing to most of it, and waits there. */
static __attribute__((noinline)) void wait_here(void)
{
    char volatile room[4096];
    room[0] = 0;
    (void)room[0];
    muntrace();
    fputs("ready\n", stderr);
    for (;;)
        pause();
}

int main(void)
{
    mtrace();
    lose();
    wait_here();
}
