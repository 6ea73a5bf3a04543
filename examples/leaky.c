/* A program that leaks in known ways, to be looked at in a core file.
 *
 * Each block has a size of its own, so that the report can be read by size,
 * and each is asked for on a line of its own, so that each has a caller of its
 * own. Built without optimization, since a compiler may drop an allocation
 * that nobody uses. Below main the stack is wiped before the program stops, so
 * that no dead frame still holds what is lost. */
#include <mcheck.h>
#include <stdio.h>
#include <stdlib.h>
#include <string.h>

struct node { struct node *next; };

enum { LOST = 45, HEAD = 61, MIDDLE = 77, TAIL = 93, RING_A = 109, RING_B = 125,
       BY_GLOBAL = 141, BY_BLOCK = 189, BY_INSIDE = 205, BY_STACK = 157, BY_REGISTER = 173,
       FENCE = 221 };

struct node *held_by_global;
char *held_inside;

/* One block, and nothing points to it. */
static void lose_a_block(void)
{
    calloc(1, LOST);
}

/* A chain of three blocks, of which the head is lost. */
static void lose_a_chain(void)
{
    struct node *head = calloc(1, HEAD);
    head->next = calloc(1, MIDDLE);
    head->next->next = calloc(1, TAIL);
}

/* Two blocks that point to each other, and nothing else does. */
static void lose_a_ring(void)
{
    struct node *a = calloc(1, RING_A);
    struct node *b = calloc(1, RING_B);
    a->next = b;
    b->next = a;
}

/* A block that a global holds, one that this block holds, and one that is held
 * by a pointer into its middle alone. */
static void hold_by_globals(void)
{
    held_by_global = calloc(1, BY_GLOBAL);
    held_by_global->next = calloc(1, BY_BLOCK);
    held_inside = (char *)calloc(1, BY_INSIDE) + 100;
}

/* Overwrites the frames that the calls before left behind. */
static void wipe_stack(void)
{
    volatile char gone[16384];
    for (size_t i = 0; i < sizeof gone; i++)
        gone[i] = 0;
}

/* Stops for good with the block in rbx: the one copy in memory is taken away
 * first. */
static void stop(void *volatile *only, int dies)
{
    register void *block __asm__("rbx") = *only;
    *only = NULL;
    wipe_stack();
    if (dies)
        __asm__ volatile("call abort" : : "r"(block) : "memory");
    for (;;)
        __asm__ volatile("syscall" : : "a"(34 /* pause */), "r"(block) : "rcx", "r11", "memory");
}

int main(int argc, char **argv)
{
    int dies = argc > 1 && strcmp(argv[1], "dies") == 0;
    mtrace();
    lose_a_block();
    lose_a_chain();
    lose_a_ring();
    hold_by_globals();
    struct node *volatile held_by_stack = calloc(1, BY_STACK);
    void *volatile only = calloc(1, BY_REGISTER);
    void *volatile fence = calloc(1, FENCE);
    wipe_stack();
    muntrace(); /* closes the log, so that all of it is in the file */
    fputs("ready\n", stderr);
    stop(&only, dies);
    return held_by_stack == fence;
}
