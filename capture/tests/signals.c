/* expect: 45 */
/* With an allocator that may be called in a signal handler, a handler that allocates at any moment. */
#include <signal.h>
#include <stdio.h>
#include <sys/time.h>
#include "lose.h"
static void *volatile held[64], *volatile in_handler[64];
static volatile unsigned handled;
static void handler(int s) { (void)s; void *volatile *p = in_handler + handled++ % 64; free(*p); *p = malloc(29); }
int main(void)
{
    struct itimerval often = { { 0, 50 }, { 0, 50 } }, never = { { 0, 0 }, { 0, 0 } };
    unsigned x = 7;
    LOSE(malloc(45));
    signal(SIGALRM, handler);
    setitimer(ITIMER_REAL, &often, NULL);
    while (handled < 20000) {
        x = x * 1664525 + 1013904223;
        void *volatile *p = held + (x >> 8) % 64;
        free(*p);
        *p = malloc((x >> 16) % 500);
    }
    setitimer(ITIMER_REAL, &never, NULL);
    rest();
}
