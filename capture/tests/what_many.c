/* Many blocks of which each twentieth is lost: what_many COUNT. With `odd` as second word no two are alike, and all are
 * of one size: what takes longest to compare. */
#include <stdint.h>
#include <stdio.h>
#include "lose.h"
enum { LISTS = 1000, WORDS = 48 };
struct node {
    struct node *next;
    void (*call)(void);
    char *name;
    long rest[];
};
static struct node *lists[LISTS];
static void one(void) {}
static void other(void) {}
static uint64_t state = 1;
static unsigned chance(unsigned below)
{
    state = state * 6364136223846793005u + 1442695040888963407u;
    return (state >> 33) % below;
}
static void fill_oddly(struct node *node)
{
    void *const some[] = { NULL, (void *)5, node, lists, (void *)(uintptr_t)one, (void *)0x6c6c6568, &state };
    for (int i = 0; i < WORDS - 4; i++)
        node->rest[i] = (long)(uintptr_t)some[chance(sizeof some / sizeof *some)];
}
static void make(int number, int odd)
{
    struct node **list = lists + chance(LISTS), *made = calloc(1, odd ? WORDS * 8 - 8 : 40 + 16 * chance(10));
    if (!made) exit(1);
    made->call = number % 2 ? one : other;
    if (odd)
        fill_oddly(made);
    if (!odd && (made->name = malloc(8 + chance(50))))
        sprintf(made->name, "key%d", number % 9999);
    if (number % 20) {
        made->next = *list;
        *list = made;
    }
}
int main(int argc, char **argv)
{
    int count = argc > 1 ? atoi(argv[1]) : 0;
    for (int i = 0; i < count / 2; i++)
        make(i, argc > 2);
    rest();
}
