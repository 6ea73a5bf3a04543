/* What the files of leak_attach share. */
#ifndef LEAK_ATTACH_H
#define LEAK_ATTACH_H

#include <elf.h>

#include "../dump/calls.h"
#include "island.h"

enum { JUMP_BYTES = 5 };

/* A mapped file with code: its dynamic symbols, as the process has them in its memory. */
struct module {
    const char *path;
    uint64_t base, bias;
    struct span code;
    Elf64_Sym *symbols;
    size_t count;
    char *strings;
    size_t string_bytes;
};

/* The process, while it is stopped. */
struct target {
    struct process process;
    struct maps maps;
    struct code code;           /* by which its threads can be called */
    struct module libc, loader;
    uint64_t files;             /* a sum of the mapped files: as long as it is the same, so are these */
    uint64_t symbol_bytes;      /* of these that were read */
    char unread[1024];          /* why a file besides libc and ld.so could not be read, or empty */
    bool refuses_others;        /* of a process with another malloc */
    struct entry {              /* of a function that is to jump, or 0 */
        uint64_t at, size;
        int taken;
        uint8_t code[32];
    } entries[FUNCTIONS];
    uint64_t base;              /* of the island, or 0 */
    struct island island;       /* a copy of its struct */
    bool is_new;                /* the island is mapped, but no jump leads to it yet */
    bool jumps;                 /* some functions may jump while nothing is armed */
};

/* What is to become of the first instructions of a function. */
struct moved {
    int taken;                  /* bytes of the function, or 0: they can't be moved */
    int bytes;                  /* of the code that they become */
    uint8_t code[64];
};

/* symbols.c */
bool get_or_note(struct target *target, uint64_t address, void *to, size_t size);
bool read_tables(struct target *target, struct module *module, const Elf64_Phdr *header);
uint64_t find_symbol(const struct module *module, const char *name, uint64_t *size);

/* modules.c */
void find_modules(struct target *target);
void read_files(struct target *target);
bool try_get(const struct target *target, uint64_t address, void *to, size_t size);
void get(const struct target *target, uint64_t address, void *to, size_t size);

/* refuse.c */
void refuse_untraceable(pid_t process);
void refuse_threads(pid_t process);
void refuse_sharers(const struct process *process);
void refuse_branches(const struct target *target);

/* decode.c */
struct instruction {
    int bytes;                  /* 0: of no known kind */
    int relative;               /* where its address relative to rip is, or 0 */
    int branch;                 /* bytes of the distance that it jumps, or 0 */
    bool is_conditional;
    bool is_fixed;              /* it may not be moved: what it leaves tells where it stands, or nothing follows it */
};
struct instruction decode(const uint8_t *code);

/* moved.c */
struct moved move_code(const uint8_t code[32], uint64_t from, uint64_t size, uint64_t to);
void find_entries(struct target *target);

/* plan.c */
extern uint8_t island_code[ISLAND_CODE_BYTES];
uint64_t needed(const struct target *target, const char *name);
void plan_island(struct target *target);

/* island.c */
bool find_by_jumps(struct target *target);
void find_island(struct target *target);
void read_target(struct target *target);
void look(struct target *target);
void put(const struct target *target, uint64_t address, const void *from, size_t size);
void put_text(const struct target *target, uint64_t address, const void *from, size_t size);
bool is_traced(const struct target *target);
int inner_number(pid_t process);
void set_state(struct target *target, uint32_t state);
void jump_of(const struct target *target, int k, uint8_t jump[JUMP_BYTES]);
void set_jumps(struct target *target, bool is_on);
bool call_process(struct target *target, struct request_of_call request, int64_t *result);
uint64_t build_of_this(void);
extern const char *const function_names[FUNCTIONS];

/* library.c */
extern const uint8_t attached_library[], attached_library_end[];

/* gate.c */
extern const uint8_t __start_gate[], __stop_gate[];
extern const uint8_t gate_malloc[], gate_free[], gate_calloc[], gate_realloc[];

/* leak_attach.c */
void limit_search(bool is_on);

/* attach.c, detach.c */
struct settings {
    uint64_t depth;
    const char *table_name;
    bool are_forks_traced;
    double seconds;             /* for which the first call is waited for */
};
void give_island_back(struct target *target);
int attach(struct target *target, const struct settings *settings);
int detach(struct target *target);

#endif
