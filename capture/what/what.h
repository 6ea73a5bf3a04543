/* What the files of leak_what share. */
#ifndef LEAK_WHAT_H
#define LEAK_WHAT_H

#include "../common/common.h"

enum { WORD = 8, NONE = -1 };

/* Dumped memory (gABI, Program Header, PT_LOAD). */
struct segment {
    uint64_t start, end;
    const uint8_t *bytes;
    uint8_t is_writable, is_code, is_stack; /* a stack: the stack pointer of some thread is in it */
};

enum { REGISTERS = 27, STACK_POINTER = 19 }; /* Linux, struct user_regs_struct */

struct thread {
    uint64_t words[REGISTERS];
};

struct core {
    struct file file;
    struct segment *segments;   /* by ascending start */
    size_t segment_count;
    const struct segment *near; /* the one that was asked for last, or NULL */
    uint64_t touched;           /* bytes of the file that were read since its pages were let go */
    struct parts parts;
    struct thread *threads;
    size_t thread_count;
};

/* The words of the core in [at, end) one after another; those that it lacks are passed over. */
struct reader {
    struct core *core;
    uint64_t at, end;
    const uint8_t *bytes;       /* of the word at `at` */
    uint64_t left;              /* words there in a row */
};

/* Some memory of the process. */
struct range {
    uint64_t start, end;
};

enum state { HELD, LOST };

struct block {
    uint64_t start, size;
};

struct blocks {
    const char *path;           /* of the log */
    int is_typed;               /* whether it tells types, and then the line of each block */
    const char **lines;
    struct block *list;         /* live ones, by ascending start; none overlaps another */
    uint8_t *state;
    size_t count, lost_count;
    uint64_t low, high;         /* all of them are between */
    struct range *freed;        /* free memory of the allocator, by ascending start; none overlaps another */
    size_t freed_count;
};

/* A symbol or a section of an ELF file: [at, at + size) of its own addresses. */
struct symbol {
    uint64_t at;
    uint32_t size, name;
};

struct section {
    uint64_t at, size;
    uint8_t is_writable, is_code;
    char *constants;            /* of .rodata its bytes, and a 0 after them; else NULL */
};

enum { MOST_LOADS = 32, MOST_ID = 64 };

/* A mapped ELF file. An address of the process less `bias` is one of the file's. */
struct module {
    const char *path, *name;
    uint64_t start, end, bias;
    uint8_t is_libc;            /* the C library or its loader */
    uint8_t is_interpreter;
    uint8_t is_read;            /* whether symbols and sections were looked for */
    uint8_t id[MOST_ID];        /* the build-id that the process has in memory */
    uint32_t id_size;           /* 0 if it has none */
    struct symbol *symbols;     /* by ascending address */
    size_t symbol_count;
    char *names;                /* of symbols: texts up to a 0, the last byte is 0 */
    struct section *sections;
    size_t section_count;
};

struct modules {
    struct module *list;        /* by ascending start */
    size_t count;
    char **roots;               /* folders below which files are looked for first */
    size_t root_count;
    uint64_t room;              /* how many bytes of tables may still be read */
};

/* GLib's table of names by number. */
struct type_names {
    int is_looked_for, is_doubtful;
    uint64_t table;             /* 0 if there is none */
    uint64_t scanned;           /* bytes of variables, in which it was looked for */
};

struct what {
    struct core core;
    struct blocks blocks;
    struct modules modules;
    struct type_names type_names;
};

/* core.c */
struct core read_core(const char *path);
const uint8_t *run_at(struct core *core, uint64_t address, uint64_t *size);
const struct segment *segment_at(struct core *core, uint64_t address);
int next_word(struct reader *reader, uint64_t *place, uint64_t *value);
int word_at(struct core *core, uint64_t address, uint64_t *value);

/* blocks.c */
static const char typed_remark[] = "= leak_what types\n";
int is_typed(struct file log);
const char *type_of_block(const struct blocks *blocks, long block, uint64_t *length);
struct blocks read_blocks(const char *log, const char *report);
long block_of(const struct blocks *blocks, uint64_t address);
int is_freed(const struct blocks *blocks, uint64_t address);
int fits_block(uint64_t size, uint64_t usable);

/* modules.c */
struct modules find_modules(struct core *core, char **roots, size_t root_count);
long module_of(const struct modules *modules, uint64_t address);
long library_of(const struct modules *modules, const char *name);

/* files.c */
enum { MOST_TABLE = 64 << 20, MOST_NAMES = 1 << 16 };

struct elf {
    int file;
    Elf64_Shdr *sections;
    uint64_t count, names;      /* the number of the section with their names */
};

struct elf open_elf(const struct modules *modules, const struct module *module);
struct elf open_debug_file(const struct modules *modules, const struct module *module);
void close_elf(struct elf *elf);
char *part_of_file(int file, uint64_t at, uint64_t size, uint64_t most);
int has_section(const struct elf *elf, const char *name);

/* symbols.c */
void read_symbols(struct modules *modules, struct module *module);

/* names.c */
const struct symbol *symbol_at(struct modules *modules, long module, uint64_t address);
const struct section *section_at(struct modules *modules, long module, uint64_t address);
int is_exactly(struct modules *modules, long module, uint64_t address, const char *name);

/* words.c: the kinds of words, as far as they tell blocks apart */
enum kind { NULL_WORD, SMALL, BLOCK, FREED, IN_FILE, STACK, TEXT, OTHER };
enum { KIND_AT = 28, DETAIL = 0xfffffff, NAMED = 0x8000000, OF_CODE = 0x4000000 };
enum kind kind_of(struct what *what, uint64_t word, long *to);
uint32_t code_of(struct what *what, uint64_t word);

/* text.c */
uint64_t text_length(const uint8_t *bytes, uint64_t size);
uint64_t text_of(struct what *what, const struct block *block, const uint8_t **bytes);
int may_be_number(struct what *what, const struct block *block, uint64_t length);
void put_quoted(const uint8_t *bytes, uint64_t size, uint64_t most);
void put_name(const char *name);
void put_type_name(const char *name);
void put_place(struct what *what, uint64_t address);

/* reach.c: how held blocks are reached */
enum origin { BY_INTERPRETER, BY_VARIABLE, BY_LIBC, BY_MEMORY, BY_STACK, BY_REGISTER };

struct role {
    int32_t parent;             /* how the block is reached that leads here; NONE: this is a root */
    int32_t offset;             /* where in it the pointer is, or one of those below */
    uint64_t size;              /* of the blocks */
    uint64_t place;             /* of a root, where the pointer is */
    uint32_t count;             /* blocks that are reached so */
    uint8_t depth, origin;
};

enum { ELEMENT = -1, DEEP = -2 };

struct roles {
    struct role *list;
    size_t count;
    int32_t *of_block;          /* NONE: nothing leads to it */
    uint32_t *table;            /* of numbers + 1, by hash; 0 is free */
    uint32_t table_size;        /* a power of two */
};

struct roles find_roles(struct what *what);

/* classes.c, likeness.c */
struct likeness {
    long block;                 /* a held one that a lost one is like, or NONE */
    int32_t role;
    uint64_t count;             /* how many of its size the same variable leads to */
};

struct classes;
struct classes *find_classes(struct what *what, const struct roles *roles);
struct likeness like_of(struct what *what, struct classes *classes, long block);
void tell_left_out(const struct classes *classes);

/* structures.c */
struct structures {
    long *lost;                 /* the numbers of the lost blocks, ascending */
    size_t count;
    int32_t *top;               /* of each the first block of its structure, by its place in `lost` */
    uint32_t *held;             /* how many lost blocks only it leads to */
    uint64_t *held_bytes;
    struct leading {            /* which structures lead to which, by the first blocks of both */
        uint32_t to, from;
    } *leading;                 /* ascending, each once */
    size_t leading_count;
};

struct structures find_structures(struct what *what);

/* objects.c */
struct object {
    const char *of;             /* whose names these are */
    const uint8_t *name;
    uint64_t length;            /* 0: its name is not told */
};

uint64_t name_at(struct what *what, uint64_t address, const uint8_t **bytes);
int is_object(struct what *what, const struct block *block, struct object *object);

/* gobjects.c */
int is_gobject(struct what *what, const struct block *block, struct object *object);

/* containers.c */
enum container_kind { TREE_NODE, HASH_NODE, HASH_BUCKETS, STRING_TEXT };
enum { DOUBTFUL = UINT32_MAX };

struct container {
    enum container_kind kind;
    int is_listed;
    long owner;                 /* the lost block that it is in, */
    uint64_t offset;            /* and where */
    uint64_t count;             /* of nodes, buckets or letters */
};

struct containers {
    struct container *list;     /* from 1 on */
    size_t count;
    uint32_t *of_block;         /* by block the number of its container; 0 of none, or DOUBTFUL */
};

struct containers find_containers(struct what *what);

/* places.c */
void put_where(struct what *what, uint64_t address);

/* facts.c */
struct sources {
    struct roles roles;
    struct classes *classes;
    struct structures structures;
    struct containers containers;
};

void put_facts(struct what *what, struct sources *sources, long block, long place);

#endif
