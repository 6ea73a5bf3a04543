/* What leak_attach, the gate and the library know of each other: the island, memory that leak_attach maps into a process within
 * 2 GiB of its malloc. It stays, since a thread may be about to run its code at any time.
 *
 * First comes this struct, then the gate and the stubs, then what the first instructions of functions became, then until it is
 * loaded the library, and last the stack on which it is loaded. */
#ifndef LEAK_ISLAND_H
#define LEAK_ISLAND_H

#include <stdint.h>

#define ISLAND_MAGIC 0x31656c73696b6c61ull

/* The functions that get a jump. The first have a gate until the library is loaded. */
enum { FUNCTION_malloc, FUNCTION_free, FUNCTION_calloc, FUNCTION_realloc, FUNCTION_memalign, FUNCTION_aligned_alloc,
       FUNCTION_posix_memalign, FUNCTION_valloc, FUNCTION_pvalloc, FUNCTION_dlclose, FUNCTIONS, GATES = FUNCTION_memalign };

/* OFF: all jumps lead by. ARMED: the next call by the program itself loads the library. FAILED: it could not be. LEAVING: it is
 * being detached. */
enum { ISLAND_OFF, ISLAND_ARMED, ISLAND_LOADING, ISLAND_ON, ISLAND_FAILED, ISLAND_LEAVING, ISLAND_STATES };

enum { ISLAND_CODE = 4096, ISLAND_STUBS = ISLAND_CODE + 3072, ISLAND_MOVED = 8192, ISLAND_LIBRARY = 12288,
       ISLAND_CODE_BYTES = ISLAND_LIBRARY - ISLAND_CODE, STUB_BYTES = 16,
       ISLAND_STACK_BYTES = 256 << 10, MOST_EXCLUDED = 6, SAVED_BYTES = 16, TABLE_NAME_BYTES = 1024 };

struct island {
    uint64_t magic;
    uint32_t state;
    int32_t process;                    /* its number in its own namespace: a child of fork has another */
    uint64_t target[FUNCTIONS];         /* where the jump at a function's first bytes leads */
    uint64_t was[FUNCTIONS];            /* the function as it was: its first instructions, then a jump behind them; 0: none */
    uint64_t function[FUNCTIONS];
    uint64_t excluded[MOST_EXCLUDED][2];    /* code that may hold locks: calls from it don't load the library */
    uint64_t stack_top;
    uint64_t handler_end;               /* where a signal's handler returns to */
    uint64_t iterating[2];              /* dl_iterate_phdr, which calls the program with a lock of ld.so held */
    uint64_t build;                     /* of gate and library: another build has other islands */
    uint64_t library_bytes, library_room;
    uint64_t stack_end;
    void *(*dlopen)(const char *, int);
    void *(*dlsym)(void *, const char *);
    char *(*dlerror)(void);
    int *(*errno_location)(void);
    int (*set_mask)(int, const void *, void *);
    int (*set_cancel)(int, int *);
    int (*start)(struct island *);      /* of the library, once it is loaded */
    uint64_t hooks[FUNCTIONS];
    uint64_t finder_at;                 /* where the library's pointer to its finder is */
    uint64_t head_at;                   /* and the one to the table's head */
    uint64_t inside_at;                 /* where a thread counts how deep it is in the library, relative to its fs_base */
    uint64_t table_path;                /* where the table's path is */
    uint64_t depth;
    uint32_t forks, forking;            /* are children traced; how many threads are in fork */
    uint8_t saved[FUNCTIONS][SAVED_BYTES], saved_bytes[FUNCTIONS];
    char path[64];                      /* of the folder of descriptors, to which the gate adds one */
    char symbol[32], error[256], table_name[TABLE_NAME_BYTES];
};

_Static_assert(sizeof(struct island) <= ISLAND_CODE, "the struct has its own page");

#endif
