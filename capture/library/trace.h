/* What the files of leak_trace.so share.
 *
 * No lock is held anywhere: a signal, a fork, a debugger or SIGKILL may come between any two instructions.
 * ../README.md says why each such stop is safe. */
#ifndef LEAK_TRACE_H
#define LEAK_TRACE_H

#include <stdatomic.h>
#include <stddef.h>
#include <stdint.h>
#include <sys/syscall.h>
#include <unistd.h>

#include "../table.h"

#define UNLIKELY(x) __builtin_expect(!!(x), 0)

/* leak_trace.so is preloaded, and its calls stand in the place of the program's. What leak_attach loads into a process that runs already (ATTACHED)
 * has the same calls, to which that one's own are made to jump. */
#ifdef ATTACHED
#define PUBLIC __attribute__((visibility("hidden")))
#else
#define PUBLIC __attribute__((visibility("default")))
#endif

/* How deep the thread is in the library: leak_attach takes the table away once each thread is out of it. A preloaded library stays. */
#ifdef ATTACHED
extern __thread int inside;
#define ENTER() (inside++, atomic_signal_fence(memory_order_seq_cst))
#define LEAVE() (atomic_signal_fence(memory_order_seq_cst), inside--)
#else
#define ENTER() ((void)0)
#define LEAVE() ((void)0)
#endif

/* The code that called an entry point: where it goes on, and its rbp and rsp when the call returns. */
struct caller {
    uintptr_t address, rbp, stack;
};

/* The caller of the function that this is in. */
#define CALLER() (struct caller){ (uintptr_t)__builtin_return_address(0), \
        *(uintptr_t *)__builtin_frame_address(0), (uintptr_t)__builtin_frame_address(0) + 16 }

/* ---- extents.c: records in memory that grows ---- */

/* Records lie in extents. The first has 1 << `first_bits` of them, and each further four make as many as there were. So no
 * record moves, and no memory is reserved: a limit on it (RLIMIT_AS, RLIMIT_DATA) is the program's. */
enum { EXTENTS = 1 + 4 * 22, ENTRY_BITS = 12, LEAF_BITS_AT_FIRST = 7, PAGE_BITS_AT_FIRST = 6 };

struct area {
    uint64_t at, end;               /* bytes of the file from its first record on; of private memory from 0 on */
    uint32_t bytes, first_bits;     /* of a record */
    int is_private;
    _Atomic uint32_t full;
    _Atomic uintptr_t extents[EXTENTS];     /* where its record 0 would lie; 0 if it is not there yet */
};

static inline unsigned extent_of(uint64_t number, unsigned first_bits)
{
    if (!(number >> first_bits))
        return 0;
    unsigned high = 63 - __builtin_clzll(number);
    return 1 + ((high - first_bits) << 2) + (number >> (high - 2) & 3);
}

/* The record, which must be there. `first_bits` is the area's, and known to the compiler. */
static inline uintptr_t record_at(const struct area *area, uint64_t number, unsigned first_bits, size_t bytes)
{
    return atomic_load_explicit(&area->extents[extent_of(number, first_bits)], memory_order_relaxed) + number * bytes;
}

int reach(struct area *area, uint64_t number);
int populate(void *from, uint64_t bytes);
void unmap_extents(struct area *area);
void empty_extents(struct area *area);
int is_in_area(const struct area *area, uintptr_t address);
int forget(void *start, uint64_t bytes);
int forget_extents(const struct area *area);
void tell_own(const void *start, uint64_t bytes);
void tell_extents(struct area *area);

/* ---- table.c: the file, and its entries ---- */

struct table {
    struct table_head *head;    /* mapped together with the first entries */
    struct area entries;
    struct area leaves;
    size_t words;               /* of an entry */
};

extern struct table table;
extern char table_path[];
extern const char *table_name;      /* the path, with %p for the pid */
extern const char *program_name;
extern uint64_t most_blocks;

/* close(): the program or another library may have a version of its own. */
static inline void shut(int file)
{
    syscall(SYS_close, file);
}

int open_table(size_t depth);
uint64_t own_namespace(void);
void close_table(struct table *old);
void remove_table(void);
int64_t take_entry(void);
void give_entry(uint32_t number);
int64_t new_leaf(void);

static inline _Atomic uint64_t *entry(uint32_t number)
{
    return (_Atomic uint64_t *)record_at(&table.entries, number, ENTRY_BITS, table.words * sizeof(uint64_t));
}

static inline _Atomic uint64_t *leaf(uint32_t number)
{
    return (_Atomic uint64_t *)record_at(&table.leaves, number, LEAF_BITS_AT_FIRST, LEAF_WORDS * sizeof(uint64_t));
}

static inline uint64_t get(_Atomic uint64_t *word)
{
    return atomic_load_explicit(word, memory_order_relaxed);
}

static inline void put(_Atomic uint64_t *word, uint64_t value)
{
    atomic_store_explicit(word, value, memory_order_relaxed);
}

/* ---- directory.c: from a region of the heap to a record ---- */

/* A cell is 0 (never used), or a key of 36 bits and below it the number of a record. If the first cells are taken, there are
 * more, which are mapped then. */
#ifdef FEW_CELLS        /* for a test */
enum { DIRECTORY_BITS = 10 };
#else
enum { DIRECTORY_BITS = 15 };
#endif
enum { NUMBER_BITS = 28, ROW_BITS = 9, MORE_BITS = 20, DIRECTORY_PROBES = 16 };

struct directory {
    _Atomic uint64_t cells[1 << DIRECTORY_BITS] __attribute__((aligned(4096)));
};

/* 512 regions in a row, 32 MiB of the heap, share a page of cells. */
static inline _Atomic uint64_t *cell_among(_Atomic uint64_t *cells, unsigned bits, uint64_t key, unsigned n)
{
    uint64_t row = ((key >> ROW_BITS) + n * 0x1000000000001ull) * 0x9E3779B97F4A7C15ull;

    return &cells[row >> (64 - bits + ROW_BITS) << ROW_BITS | key % (1 << ROW_BITS)];
}

static inline _Atomic uint64_t *directory_cell(struct directory *directory, uint64_t key, unsigned n)
{
    return cell_among(directory->cells, DIRECTORY_BITS, key, n);
}

static inline int64_t number_in(uint64_t cell)
{
    return cell & ((1ull << NUMBER_BITS) - 1);
}

/* What a directory is of, and its further cells, which a child of fork has too, but empty. */
struct records {
    int64_t (*make)(uint64_t key);
    void (*unmake)(int64_t number);
    _Atomic uintptr_t more;
};

extern struct records leaf_records, page_records;

int64_t look_up(struct directory *directory, uint64_t key, struct records *records, int is_wanted);
void tell_more_cells(void);

/* ---- finder.c: from the start of a block to its entry ---- */

/* A stack of unused entries: its top bit is set, then 31 bits that change with each use, then the number of
 * an entry plus 1. Each has a cache line to itself. */
struct unused {
    _Atomic uint64_t top;
    char line[56];
};

/* A remembered rule of frames.c. The key is the address xor the rule, so that a half-written pair is no hit. */
struct rule_cell {
    _Atomic uint64_t key, rule;
};

enum { STACKS = 16, RULES = 4096, LEAST_BLOCKS = 1 << 15, MOST_BLOCKS = 1 << 30 };

/* Private memory, which the kernel zeroes in a child of fork (MADV_WIPEONFORK). So a child is not traced
 * until `after_fork` has given it a table of its own, and a child of a bare clone never is. */
struct finder {
    _Atomic uint32_t on;
    _Atomic uint32_t threads;
    _Atomic uint64_t pages;             /* of cells, that were ever used */
    char line[48];
    struct unused unused[STACKS];
    struct rule_cell rules[RULES];
    struct directory leaves, cells;
};

extern struct finder *finder;
extern struct area cell_pages;

int open_finder(void);
void *private_memory(uint64_t bytes);
void insert(uintptr_t start, size_t size, uint64_t stamp, const uintptr_t *callers, size_t depth);
int take_out(uintptr_t start, uint64_t *copy);
int64_t set_aside(uintptr_t start, uint64_t *copy);
void let_go(int64_t number);

static inline int tracing(void)
{
    return finder && atomic_load_explicit(&finder->on, memory_order_relaxed);
}

/* ---- pieces.c: which memory was ever in a small block ---- */

void keep_pieces(uintptr_t start, size_t size);

/* ---- callers.c: who asked for a block ---- */

extern __thread struct caller caller_of_new;

void *record(void *block, size_t size, struct caller caller);
void forget_rules(void);

/* ---- frames.c: from one frame of the stack to the next ---- */

uint64_t read_rule(uintptr_t address);

/* A rule: RULE_KNOWN and flags, then how far the caller's rsp lies above the base, then where its rbp was
 * saved, below that rsp. Both distances have 28 bits. */
enum { RULE_KNOWN = 1, RULE_FROM_RBP = 2, RULE_SAVES_RBP = 4, RULE_LAST_FRAME = 8, RULE_TOO_HARD = 16,
       RULE_UP_SHIFT = 8, RULE_RBP_SHIFT = 36, RULE_MASK = (1 << 28) - 1 };

/* ---- folder.c: all tables of a folder ---- */

int has_room(void);

/* ---- kept_out.c: memory that the program keeps out of cores ---- */

int advise(void *start, uint64_t bytes, int advice);

/* ---- exec.c: programs that this one runs ---- */

void keep_variables(char **environment);

/* ---- programs.c: which programs can't have the library ---- */

int refuses_library(int folder, const char *path);
int named_refuses_library(const char *name);

/* ---- start.c ---- */

extern int frees_wipe, tables_stay, execs_are_traced;
extern uint64_t most_megabytes;     /* of all tables together; 0: a quarter of the file system */

void complain(const char *what, const char *why);

/* ---- fork.c ---- */

extern int forks_are_traced;
extern struct table parents_table;  /* in a child of fork, while it copies it */
extern _Atomic uint32_t *forking;   /* counts threads that are in fork, if it is not null */

void before_fork(void);
void after_fork(void);
void after_fork_in_parent(void);
void tell_untraced(struct table_head *head, uint64_t pid, const char *program);

/* ---- cut.c: a table that somebody makes shorter ---- */

void guard_table(void);
void guard_child(void);
int is_whole(const struct table *which);

/* ---- stacks.c: alternate signal stacks ---- */

void copy_signal_stack(void);

/* ---- ../attach/begin.c: of a library that is attached ---- */

struct island;

void take_calls(struct island *island);
void take_dlclose(struct island *island);

#endif
