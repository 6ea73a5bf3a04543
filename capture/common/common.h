/* What leak_log and leak_walk share. */
#ifndef LEAK_COMMON_H
#define LEAK_COMMON_H

#include <elf.h>
#include <stdarg.h>
#include <stddef.h>
#include <stdint.h>
#include <stdio.h>
#include <string.h>

enum { PAGE = 4096, REFUSED = 2 };

struct file {
    const uint8_t *bytes;       /* mapped */
    uint64_t size;
    const char *path;
    int descriptor;
    uint64_t data, data_end;    /* where the data begins and ends that was looked for last */
};

/* The program headers of a core (gABI, Program Header). */
struct headers {
    const uint8_t *first;
    uint64_t count;
};

struct note {
    uint32_t type;
    const char *name;           /* up to its 0, which it may lack */
    uint64_t name_size;
    const uint8_t *bytes;
    uint64_t size;
};

/* What a core has of the process's memory from an address on, without a gap. `at` is NULL if it has nothing there. */
struct memory {
    const uint8_t *at;
    uint64_t size;
};

typedef struct memory memory_at(void *core, uint64_t address);

/* What is known of where a part lies in its file: nothing yet, its place, or that no header of the file leads there. */
enum placing { NOT_YET, PLACED, NOWHERE };

/* The size of a file, and when it was changed last: 0 seconds if that is not known. */
struct written {
    uint64_t size, seconds, nanoseconds;
};

/* A part of a file that the process had mapped. An address in it is at `address + bias` in the ELF file. */
struct part {
    uint64_t start, end, offset, bias;
    const char *path;
    struct memory head;         /* of an ELF file: its first bytes as the process had them, with all program headers */
    enum placing known;
    struct written written;     /* of a part with the file's begin */
};

struct parts {
    struct part *list;          /* by ascending start, once sorted */
    size_t count;
    struct memory written;      /* a note of leak_core, or none */
    uint64_t path_bytes;        /* of paths that are in the log */
    int is_full;                /* has the log no room for more? */
};

/* What a core says of alternate signal stacks. */
struct signal_stacks {
    uint64_t threads;           /* of the core */
    uint64_t unasked;           /* threads that were not asked, if others were */
    uint64_t words_at;          /* where leak_core's segment of words that the kernel holds begins, or 0 */
    uint64_t usual_size;        /* sysconf(_SC_SIGSTKSZ), or 0 */
    int is_asked;               /* by leak_core */
};

/* Where the program's headers are in its memory, where its interpreter is mapped, and 16 random bytes: 0 if it has none. */
struct start {
    uint64_t headers, interpreter, random;
    int is_known;
};

/* say.c; each program defines its name and its help */
extern const char program[], usage[], help[];
void say(const char *form, va_list values);
void print_escaped(FILE *to, const char *text);
__attribute__((format(printf, 1, 2))) void warn(const char *form, ...);
__attribute__((noreturn, format(printf, 1, 2))) void fail(const char *form, ...);
__attribute__((noreturn)) void refuse_words(int count, char **words);
void *grown(void *list, size_t count, size_t each);

/* file.c */
struct file map_file(const char *path);
int reopen_regular(int place);
int open_regular(const char *path);
uint64_t next_data(struct file *file, uint64_t at);
int begins(const char *at, const char *stop, const char *with);
const char *end_of_line(struct file log, const char *at);

/* elf.c */
struct headers headers_of(struct file core);
Elf64_Phdr header_at(struct file core, struct headers headers, uint64_t number);
int next_note(const uint8_t **at, const uint8_t *end, struct note *note);
int is_note(const struct note *note, uint32_t type, const char *name);

/* parts.c */
int by_start(const void *a, const void *b);
void add_parts(struct parts *parts, const struct note *note);
struct part *part_at(const struct parts *parts, uint64_t address);
const struct part *part_of(const struct parts *parts, uint64_t address);
void sort_parts(struct parts *parts, memory_at *memory, void *core);
const char *name_of(const struct part *part);
const struct part *other_allocator(const struct parts *parts);
int takes_path(struct parts *parts, const struct part *part, uint64_t size);

/* heads.c */
struct memory head_of_file(struct memory memory);
int is_laid_out(const struct part *first, const struct part *part, uint64_t *bias);
int is_same_build(struct memory head, struct memory other);
void put_files(const struct parts *parts);

/* written.c */
void read_written(struct parts *parts, const struct note *note);
void place_written(struct parts *parts);
void put_written(const struct part *part);

/* signal_stacks.c */
void read_signal_stacks(struct signal_stacks *stacks, const struct note *note);
uint64_t unknown_stacks(const struct signal_stacks *stacks);
void put_stacks_remark(const struct signal_stacks *stacks, uint64_t unknown);

/* start.c */
void read_start(struct start *start, const struct note *note);
int is_static(const struct start *start, const struct parts *parts);
void put_allocator(const char *name);
void put_program(const struct start *start, const struct parts *parts);

/* exports.c */
int may_export(const struct part *part, const char *name);

/* undumped.c */
void tell_undumped_files(struct file core, const struct parts *parts, int is_by_leak_core, int (*is_own)(uint64_t address));

/* output.c */
void put_bytes(const uint8_t *bytes, uint64_t size);
void put_number(uint64_t value);
void put_hex_behind(const char *before, size_t length, uint64_t value);
void put_end(void);

/* Here, so that the length of a constant is known when this is compiled. */
static inline void put_text(const char *text)
{
    put_bytes((const uint8_t *)text, strlen(text));
}

static inline void put_hex(const char *before, uint64_t value)
{
    put_hex_behind(before, strlen(before), value);
}

#endif
