/* What the kernel told the program at its start (getauxval(3)), by the NT_AUXV note of a core: whether it is static, and which file it is. */
#include <string.h>

#include "common.h"

void read_start(struct start *start, const struct note *note)
{
    Elf64_auxv_t each;

    *start = (struct start){ .is_known = 1 };
    for (uint64_t at = 0; note->size - at >= sizeof each; at += sizeof each) {
        memcpy(&each, note->bytes + at, sizeof each);
        if (each.a_type == AT_PHDR)
            start->headers = each.a_un.a_val;
        if (each.a_type == AT_BASE)
            start->interpreter = each.a_un.a_val;
        if (each.a_type == AT_RANDOM)
            start->random = each.a_un.a_val;
    }
}

static int is_library(const struct part *part)
{
    const char *name = name_of(part);

    return !strncmp(name, "libc.", 5) || !strncmp(name, "libc-", 5) || !strncmp(name, "ld-", 3);
}

/* Has it no interpreter? One that was started as a program itself, with the real program for a word, is told by the C library. */
int is_static(const struct start *start, const struct parts *parts)
{
    if (!start->is_known || start->interpreter)
        return 0;
    for (size_t i = 0; i < parts->count; i++)
        if (is_library(parts->list + i))
            return 0;
    return 1;
}

/* Says by a remark of the log whose blocks it has. */
void put_allocator(const char *name)
{
    put_text("= leak_log allocator ");
    put_text(name);
    put_text("\n");
}

/* Says by a remark of the log if the program is static. */
void put_program(const struct start *start, const struct parts *parts)
{
    if (is_static(start, parts))
        put_text("= leak_log program static\n");
}
