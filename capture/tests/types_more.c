/* The structures that types.c only declares. */
#include <stddef.h>

struct elsewhere {
    char bytes[120];
};
struct twice {
    char bytes[280];
};
struct either_one {
    char bytes[456];
};
struct elsewhere *seen;
struct twice *seen_twice;
struct either_one *seen_either_one;
size_t size_of_elsewhere(void) { return sizeof *seen; }
size_t size_of_twice(void) { return sizeof *seen_twice; }
size_t size_of_either_one(void) { return sizeof *seen_either_one; }
