/* Types of blocks by debug information. */
#ifndef LEAK_WHAT_TYPES_H
#define LEAK_WHAT_TYPES_H

#include "what.h"

enum type_kind { OTHER_TYPE, POINTER_TYPE, STRUCT_TYPE, ARRAY_TYPE };
enum { UNKNOWN_TYPE = 0 };      /* the number of one that nothing is known of */

struct member {
    uint64_t offset;
    uint32_t type;
};

struct type {
    enum type_kind kind;
    uint32_t to;                /* what a pointer leads to, or an array is of */
    uint64_t size, count;       /* of a structure, and of an array */
    const char *word, *name;    /* `struct `, `class ` or nothing; and NULL if it has no name that may be told */
    struct member *members;
    size_t member_count;
    uint64_t each;              /* of a structure that ends with an array without a length, the bytes of an element */
    uint64_t *outer;            /* the sizes of structures that begin with this one, ascending */
    size_t outer_count;
};

struct variable {
    uint64_t at;
    uint32_t type;
};

struct types {
    struct type *list;
    size_t count;
    struct variable *variables;
    size_t variable_count;
};

/* limited.c */
struct allowance {
    int64_t milliseconds;       /* by the clock, that the files may still take together */
    uint64_t bytes;             /* that may still be said of them */
};

struct allowance allowance_of_all(void);
char *types_of_file(int file, struct allowance *left, size_t *size);

/* read_types.c */
void add_types(struct types *types, char *text, size_t size, uint64_t bias);

/* typing.c */
struct label {
    uint32_t type;              /* UNKNOWN_TYPE: none */
    uint8_t is_array, is_doubtful;
};

struct label *find_labels(struct what *what, const struct types *types);

/* typed_log.c */
int write_typed_log(const char *core, const char *log, char **roots, size_t root_count);

#endif
