/* Blocks that fill most of the heap and were never touched, of the main arena and of a thread's. Each holds nothing. */
#include <pthread.h>
#include "lose.h"
enum { COUNT = 200, BYTES = 100000 };
static void *volatile held[2 * COUNT];
static void *work(void *from)
{
    for (int i = 0; i < COUNT; i++) {
        held[(long)from + i] = malloc(BYTES);
        free(malloc(i));
    }
    return from ? (rest(), NULL) : NULL;
}
int main(void)
{
    pthread_t thread;
    work(NULL);
    if (pthread_create(&thread, NULL, work, (void *)COUNT)) return 1;
    rest();
}
