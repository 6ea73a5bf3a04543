/* In place of bdwgc's leak_detector.h: its check is a stop, and malloc is that of the C library. */
#include <stdlib.h>

#include "stop.h"

#define GC_PTHREADS
#define GC_INIT() ((void)0)
#define GC_set_find_leak(on) ((void)(on))
#define CHECK_LEAKS() leak_stop(0)
