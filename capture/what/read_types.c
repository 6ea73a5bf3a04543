/* Reads what leak_types writes of a file. It may be anything, since the file may be anybody's. */
#include <stdlib.h>

#include "types.h"

enum { MOST_TYPES = 1 << 20, LARGEST = 1 << 30 };

/* What is being read. Numbers of types count from `base`. */
struct reading {
    struct types *types;
    struct type *last;          /* that the next lines are of, or NULL */
    uint32_t base;
    uint64_t bias;
};

static uint64_t next_number(char **at)
{
    return strtoull(*at, at, 10);
}

static uint32_t next_type(const struct reading *r, char **at)
{
    uint64_t number = next_number(at);

    return number && number < MOST_TYPES ? r->base + (uint32_t)number - 1 : UNKNOWN_TYPE;
}

static void add_type(struct reading *r, struct type type)
{
    struct types *types = r->types;

    types->list = grown(types->list, types->count, sizeof *types->list);
    r->last = types->list + types->count++;
    *r->last = type;
}

static void add_structure(struct reading *r, const char *word, char *at)
{
    uint64_t size = next_number(&at);

    add_type(r, (struct type){ .kind = STRUCT_TYPE, .size = size < LARGEST ? size : 0, .word = word,
                               .name = *at == ' ' && at[1] ? at + 1 : NULL });
}

static void add_member(struct reading *r, char *at)
{
    struct type *s = r->last;
    uint64_t offset = next_number(&at);

    s->members = grown(s->members, s->member_count, sizeof *s->members);
    s->members[s->member_count++] = (struct member){ offset, next_type(r, &at) };
}

static void add_outer(struct reading *r, char *at)
{
    struct type *s = r->last;

    s->outer = grown(s->outer, s->outer_count, sizeof *s->outer);
    s->outer[s->outer_count++] = next_number(&at);
}

static void add_variable(struct reading *r, char *at)
{
    struct types *types = r->types;
    uint64_t address = next_number(&at);

    types->variables = grown(types->variables, types->variable_count, sizeof *types->variables);
    types->variables[types->variable_count++] = (struct variable){ r->bias + address, next_type(r, &at) };
}

/* Where the rest of the line begins, if its first word is this one; else NULL. */
static char *after(char *line, const char *word)
{
    size_t length = strlen(word);

    if (strncmp(line, word, length) || (line[length] && line[length] != ' '))
        return NULL;
    return line + length + (line[length] == ' ');
}

static void read_line(struct reading *r, char *line)
{
    int of_structure = r->last && r->last->kind == STRUCT_TYPE;
    char *at;

    if ((at = after(line, "member")) && of_structure)
        add_member(r, at);
    else if ((at = after(line, "begins")) && of_structure)
        add_outer(r, at);
    else if ((at = after(line, "flexible")) && of_structure)
        r->last->each = next_number(&at);
    else if ((at = after(line, "struct")))
        add_structure(r, "struct ", at);
    else if ((at = after(line, "class")))
        add_structure(r, "class ", at);
    else if ((at = after(line, "alias")))
        add_structure(r, "", at);
    else if ((at = after(line, "pointer")))
        add_type(r, (struct type){ .kind = POINTER_TYPE, .size = WORD, .to = next_type(r, &at) });
    else if ((at = after(line, "array"))) {
        uint64_t count = next_number(&at);
        add_type(r, (struct type){ .kind = ARRAY_TYPE, .count = count < LARGEST ? count : 0, .to = next_type(r, &at) });
    } else if ((at = after(line, "other")))
        add_type(r, (struct type){ .word = "", .name = *at ? at : NULL });
    else if ((at = after(line, "variable")))
        add_variable(r, at);
}

static int by_size(const void *a, const void *b)
{
    const uint64_t *x = a, *y = b;

    return (*x > *y) - (*x < *y);
}

/* Numbers of types that aren't there become unknown. */
static void check_numbers(struct types *types, size_t first, size_t first_variable)
{
    for (size_t i = first; i < types->count; i++) {
        struct type *t = types->list + i;
        if (t->to >= types->count)
            t->to = UNKNOWN_TYPE;
        if (t->outer_count)
            qsort(t->outer, t->outer_count, sizeof *t->outer, by_size);
        for (size_t k = 0; k < t->member_count; k++)
            if (t->members[k].type >= types->count)
                t->members[k].type = UNKNOWN_TYPE;
    }
    for (size_t i = first_variable; i < types->variable_count; i++)
        if (types->variables[i].type >= types->count)
            types->variables[i].type = UNKNOWN_TYPE;
}

/* Adds the types and variables of a file whose addresses are so much less than the process's. Names stay in the text.
 */
void add_types(struct types *types, char *text, size_t size, uint64_t bias)
{
    struct reading r = { .types = types, .bias = bias };
    size_t first_variable = types->variable_count;
    char *end = text + size;

    if (!types->count)
        add_type(&r, (struct type){ .kind = OTHER_TYPE });
    r.base = types->count;
    r.last = NULL;
    for (char *line = text, *stop; (stop = memchr(line, '\n', end - line)); line = stop + 1) {
        *stop = 0;
        if (types->count < MOST_TYPES)
            read_line(&r, line);
    }
    check_numbers(types, r.base, first_variable);
}
