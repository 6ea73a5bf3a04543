/* Loses a block by its own function and one by a library's, which has a class-like table of functions too, and rests. It is built
 * twice, with the same paths: by -DNEWER all is elsewhere, and other functions are where these were. */
#include "lose.h"
#include "builds.h"
__attribute__((noinline)) void *OWN(first)(void) { return malloc(29); }
#ifdef NEWER
__attribute__((noinline)) int OWN(between)(int x) { return x * 7 + 3; }
#endif
__attribute__((noinline)) void *OWN(second)(void) { return malloc(45); }
int main(int argc, char **argv)
{
    if (argc > 9) return OWN(second)() != argv;
    LOSE(OWN(first)());
    LOSE(LIBRARY(object)());
    LOSE(LIBRARY(give)(61));
    rest();
}
