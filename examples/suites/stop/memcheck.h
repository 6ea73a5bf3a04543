/* In place of valgrind's memcheck.h: checks are stops, and what marks memory does nothing. */
#include <string.h>

#include "stop.h"

#define VALGRIND_DO_LEAK_CHECK leak_stop(0)
#define VALGRIND_DO_QUICK_LEAK_CHECK leak_stop(0)
#define VALGRIND_DO_ADDED_LEAK_CHECK leak_stop(0)
#define VALGRIND_DO_CHANGED_LEAK_CHECK leak_stop(0)
#define VALGRIND_COUNT_LEAKS(a, b, c, d) ((void)((a) = (b) = (c) = (d) = 0))
#define VALGRIND_COUNT_LEAK_BLOCKS VALGRIND_COUNT_LEAKS
#define VALGRIND_MAKE_MEM_UNDEFINED(at, size) 0
#define VALGRIND_MAKE_MEM_DEFINED(at, size) 0
#define VALGRIND_MONITOR_COMMAND(text) 0
#define VALGRIND_CLO_CHANGE(text) ((void)(text))
#define VALGRIND_NON_SIMD_CALL2(function, a, b) (function(0, a, b), 0)
#define RUNNING_ON_VALGRIND 0
