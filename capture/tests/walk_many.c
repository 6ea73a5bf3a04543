/* As many blocks as the argument says, of 24 to 71 bytes, each of which holds the one before. */
#include "lose.h"
int main(int argc, char **argv)
{
    static void *volatile held;
    unsigned x = 7;
    for (long i = argc > 1 ? atol(argv[1]) : 1000; i; i--) {
        x = x * 1664525 + 1013904223;
        void **p = malloc(24 + (x >> 8) % 48);
        *p = held;
        held = p;
        if (i % 16 == 0)
            free(malloc(24 + (x >> 8) % 48 + 64));
    }
    rest();
}
