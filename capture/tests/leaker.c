/* Preloaded into a server: loses 50 blocks of 45 bytes at once, and one of 77 bytes every 20 ms. */
#include <pthread.h>
#include "lose.h"
static void *lose_on(void *unused)
{
    for (;;) {
        LOSE(malloc(77));
        usleep(20000);
    }
    return unused;
}
__attribute__((constructor)) static void begin(void)
{
    pthread_t t;
    for (int i = 0; i < 50; i++)
        LOSE(malloc(45));
    pthread_create(&t, NULL, lose_on, NULL);
}
