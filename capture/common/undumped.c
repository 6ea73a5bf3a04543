/* Which writable memory a core lists without its contents: what it alone holds is named wrongly, so each mapping is told. */
#include <stdlib.h>
#include <string.h>

#include "common.h"

enum { MOST_TOLD = 8, MOST_FILES = 64 };

/* Memory of one file, or of none. */
struct gap {
    const char *path;           /* NULL: no file */
    uint64_t first, bytes;
};

struct gaps {
    struct gap list[MOST_FILES];
    size_t count;
    uint64_t more;              /* bytes of further files */
};

static int is_same(const char *a, const char *b)
{
    return a && b ? !strcmp(a, b) : a == b;
}

static void add_gap(struct gaps *gaps, const char *path, uint64_t at, uint64_t bytes)
{
    size_t i = 0;

    while (i < gaps->count && !is_same(gaps->list[i].path, path))
        i++;
    if (i == MOST_FILES)
        gaps->more += bytes;
    else if (i < gaps->count)
        gaps->list[i].bytes += bytes;
    else
        gaps->list[gaps->count++] = (struct gap){ path, at, bytes };
}

static int by_bytes(const void *a, const void *b)
{
    const struct gap *x = a, *y = b;

    return (x->bytes < y->bytes) - (x->bytes > y->bytes);
}

/* Why the core lacks it, as far as that can be known: leak_core leaves out what is shared with a file of a name, and what can't be
 * read; the kernel goes by its filter (core(5)). */
static const char *why(const struct gap *gap, int is_by_leak_core)
{
    if (!gap->path)
        return is_by_leak_core ? "it can't be read" : "kept out by the program (MADV_DONTDUMP) or by the kernel's filter (coredump_filter)";
    if (!strncmp(gap->path, "/dev/", 5) && strncmp(gap->path, "/dev/shm/", 9))
        return "a device";
    return is_by_leak_core ? "shared with the file, or it can't be read" : "a file's memory, which the kernel's filter leaves out (coredump_filter)";
}

static void tell_gap(const struct gap *gap, int is_by_leak_core)
{
    if (gap->path)
        warn("undumped: %llu bytes of %s: %s", (unsigned long long)gap->bytes, gap->path, why(gap, is_by_leak_core));
    else
        warn("undumped: %llu bytes of no file, the first at 0x%llx: %s", (unsigned long long)gap->bytes, (unsigned long long)gap->first,
             why(gap, is_by_leak_core));
}

static void tell_gaps(struct gaps *gaps, int is_by_leak_core)
{
    uint64_t more = gaps->more;

    qsort(gaps->list, gaps->count, sizeof *gaps->list, by_bytes);
    for (size_t i = 0; i < gaps->count; i++)
        if (i < MOST_TOLD)
            tell_gap(gaps->list + i, is_by_leak_core);
        else
            more += gaps->list[i].bytes;
    if (more)
        warn("undumped: %llu bytes of further files", (unsigned long long)more);
}

/* Says so of each file's memory, the largest first, but for memory that `own` tells to be of no account. */
void tell_undumped_files(struct file core, const struct parts *parts, int is_by_leak_core, int (*is_own)(uint64_t address))
{
    struct headers headers = headers_of(core);
    struct gaps gaps = { 0 };

    for (uint64_t i = 0; i < headers.count; i++) {
        Elf64_Phdr p = header_at(core, headers, i);
        uint64_t at = p.p_vaddr + p.p_filesz;
        if (p.p_type != PT_LOAD || !(p.p_flags & PF_W) || p.p_filesz >= p.p_memsz || (is_own && is_own(p.p_vaddr)))
            continue;
        const struct part *part = part_at(parts, at);
        add_gap(&gaps, part ? part->path : NULL, at, p.p_memsz - p.p_filesz);
    }
    tell_gaps(&gaps, is_by_leak_core);
}
