/* A stop in place of a test's own check for leaks. */
#ifndef LEAK_STOP_H
#define LEAK_STOP_H

#ifdef __cplusplus
extern "C"
#endif
int leak_stop(const char *name);

/* Holds a block that the test tells its checker to ignore, or no longer. */
#ifdef __cplusplus
extern "C"
#endif
void leak_ignore(const volatile void *block, int is_ignored);

#endif
