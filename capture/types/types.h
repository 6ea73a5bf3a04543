/* What the files of leak_types share. */
#ifndef LEAK_TYPES_H
#define LEAK_TYPES_H

#include <dwarf.h>
#include <elfutils/libdw.h>

#include "../common/common.h"

/* So that time and memory are bounded whatever the file says. */
enum { MOST_STEPS = 1 << 27, MOST_LISTED = 1 << 22, MOST_BEGINNINGS = 1 << 24, DEEPEST = 32, MOST_WITHIN = 4,
       MOST_PEELED = 32, MOST_NAME = 200 };

/* A structure or class that the debug information defines. */
struct definition {
    Dwarf_Die die;
    const char *name;           /* with its namespaces and classes, or NULL */
    uint64_t size;
    int line;
    int is_local;               /* it is in a function, so no declaration elsewhere stands for it */
};

/* A structure or class that is declared here, and may be defined elsewhere. */
struct declaration {
    const void *place;          /* of its entry */
    const char *name;           /* with its namespaces and classes, or NULL */
};

/* A variable of the whole program, or a static one. */
struct variable {
    uint64_t at;
    Dwarf_Die type;
};

/* A structure begins with members of this key. */
struct beginning {
    uint64_t key;
    const struct definition *of;
    int is_whole;               /* it has no others */
};

struct debug {
    struct definition *list;    /* by the place of their entries */
    size_t count;
    struct definition **by_name;
    size_t named;
    struct declaration *declarations; /* by place */
    size_t declared, of_others; /* how many there are, and how many of them are of files that were read before */
    int functions;              /* that are around what is being read */
    struct variable *variables;
    size_t variable_count;
    struct beginning *beginnings; /* by key */
    size_t beginning_count;
};

/* scopes.c */
void count_step(void);
struct debug read_debug(Dwarf *dwarf);

/* names.c */
int is_structure(int tag);
int type_of(Dwarf_Die *die, Dwarf_Die *type);
int number_of_attribute(Dwarf_Die *die, unsigned name, uint64_t *value);
int peel(const struct debug *debug, Dwarf_Die *die, const char **alias);
const struct definition *definition_of(const struct debug *debug, const Dwarf_Die *die);
const char *name_of_declaration(const struct debug *debug, const Dwarf_Die *die, size_t first);
void sort_names(struct debug *debug);

/* beginnings.c */
void find_beginnings(struct debug *debug);
void write_beginnings(struct debug *debug, const struct definition *structure);

/* written.c */
void write_types(struct debug *debug);

#endif
