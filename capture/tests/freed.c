/* expect: 45 61 77 93 109 125 141 157 189 */
/* The only pointers to what is lost are left in freed memory, which leak_find --skip-freed leaves out. `freed child` does
 * it in a child of fork, which also frees what the parent allocated. */
#include <malloc.h>
#include <pthread.h>
#include "lose.h"
static void *volatile held[100];
static int count;
enum { MANY = 17 };
/* What is held after a block keeps it from the top of the heap. */
static void *volatile *before_a_held_block(void *block) { held[count++] = malloc(100); return block; }
__attribute__((noinline)) static void **begin(void)
{
    void *volatile *p = before_a_held_block(malloc(500));
    p[10] = malloc(45);
    return (void **)p;
}
__attribute__((noinline)) static void shrunk(void)
{
    void *volatile *p = before_a_held_block(malloc(1000));
    p[100] = malloc(61);
    held[count++] = realloc((void *)p, 100);
}
__attribute__((noinline)) static void moved(void)
{
    void *volatile *p = before_a_held_block(malloc(700));
    p[50] = malloc(77);
    p = realloc((void *)p, 3000);
    p[50] = NULL;
    held[count++] = (void *)p;
}
__attribute__((noinline)) static void of_a_thread(void)
{
    void *volatile *p = malloc(600);
    p[30] = malloc(93);
    free((void *)p);
}
static void *thread(void *p) { of_a_thread(); rest(); return p; }
/* A part of what was freed is in use again, and holds a block. */
__attribute__((noinline)) static void in_use_again(void)
{
    void *volatile *p = before_a_held_block(malloc(1500)), **again;
    p[100] = malloc(109);
    free((void *)p);
    held[count++] = again = malloc(232);
    again[20] = malloc(173);
}
__attribute__((noinline)) static void aligned(void)
{
    void *p;
    if (posix_memalign(&p, 64, 900)) return;
    before_a_held_block(p)[60] = malloc(141);
    free(p);
}
__attribute__((noinline)) static void last_word(void)
{
    void *volatile *p = malloc(24);
    p[2] = malloc(157);
    free((void *)p);
}
/* From 128 KiB on a table tells no freed memory, but the heap does. It comes last, for memory that was never in a small
 * block. */
__attribute__((noinline)) static void large(void)
{
    void *volatile *p = before_a_held_block(malloc(150000));
    p[9000] = malloc(189);
    free((void *)p);
}
/* Free memory of more than 128 KiB, that was given out in small blocks, of which each ends where the next begins. */
__attribute__((noinline)) static void many(void)
{
    void *volatile *p[MANY];
    for (int i = 0; i < MANY; i++)
        p[i] = malloc(8008);
    p[10][500] = malloc(125);
    held[count++] = malloc(100);
    for (int i = 0; i < MANY; i++)
        free((void *)p[i]);
}
int main(int argc, char **argv)
{
    pthread_t t;
    (void)argv;
    mallopt(M_MMAP_THRESHOLD, 1 << 20);
    void **first = begin();
    if (argc > 1 && fork())
        rest();
    free(first), first = NULL;
    shrunk(), scrub();
    moved(), scrub();
    if (pthread_create(&t, NULL, thread, NULL)) return 1;
    many(), scrub();
    in_use_again(), scrub();
    aligned(), scrub();
    last_word(), scrub();
    large(), scrub();
    rest();
}
