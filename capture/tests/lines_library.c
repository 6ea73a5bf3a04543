/* A library of which some functions are exported and others are not. The order is that of the file. */
#include <stdlib.h>
#define HIDDEN __attribute__((visibility("hidden"), noinline))
void *first_function(size_t size) { return calloc(1, size); }
HIDDEN void *hidden_function(size_t size) { return calloc(2, size); }
HIDDEN void *lost_function(size_t size) { return calloc(3, size); }
void *last_function(size_t size) { return (char *)hidden_function(size) - (char *)lost_function(size) + (char *)calloc(4, size); }
