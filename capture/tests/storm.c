/* expect: 45 61 */
#include "lose.h"
static void *volatile held[64];
int main(void)
{
    unsigned x = 7;
    LOSE(malloc(45));
    for (int i = 0; i < 1000000; i++) {
        x = x * 1664525 + 1013904223;
        void *volatile *p = held + (x >> 8) % 64;
        void *q = realloc(*p, (x >> 16) % 5000);
        *p = q;
    }
    LOSE(malloc(61));
    rest();
}
