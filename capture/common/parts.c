/* Which parts of files the process had mapped (Linux, NT_FILE), and where an address is in such a file. */
#include <limits.h>
#include <stdlib.h>
#include <string.h>

#include "common.h"

/* Entries of an NT_FILE note: count and page size, then start, end and page of each part, then the names. */
enum { NOTE_HEAD = 16, NOTE_PART = 24 };

/* All structs that are sorted by this begin with their start. */
int by_start(const void *a, const void *b)
{
    uint64_t x = *(const uint64_t *)a, y = *(const uint64_t *)b;

    return (x > y) - (x < y);
}

static uint64_t get(const uint8_t *at)
{
    uint64_t value;

    memcpy(&value, at, sizeof value);
    return value;
}

/* Adds the parts that an NT_FILE note has. */
void add_parts(struct parts *parts, const struct note *note)
{
    uint64_t count = note->size < NOTE_HEAD ? 0 : get(note->bytes);
    const char *path, *end = (const char *)note->bytes + note->size;

    if (!count || count > (note->size - NOTE_HEAD) / NOTE_PART)
        return;
    path = (const char *)note->bytes + NOTE_HEAD + NOTE_PART * count;
    for (uint64_t i = 0; i < count && path < end && memchr(path, 0, end - path); i++) {
        const uint8_t *at = note->bytes + NOTE_HEAD + NOTE_PART * i;
        parts->list = grown(parts->list, parts->count, sizeof *parts->list);
        size_t length = strlen(path);
        /* a line of the log can't have such a name, nor the system one that long */
        if (get(at) < get(at + 8) && length < PATH_MAX && !memchr(path, '\n', length))
            parts->list[parts->count++] = (struct part){ .start = get(at), .end = get(at + 8),
                                                         .offset = get(at + 16) * get(note->bytes + 8), .path = path };
        path += length + 1;
    }
}

/* Sorts the parts, and finds the headers of the files in the memory of the process. What is in a file of that name by now says
 * nothing of the one that was mapped. */
void sort_parts(struct parts *parts, memory_at *memory, void *core)
{
    if (!parts->count)
        return;
    qsort(parts->list, parts->count, sizeof *parts->list, by_start);
    place_written(parts);
    for (struct part *part = parts->list; part < parts->list + parts->count; part++)
        if (!part->offset) {
            struct memory first = memory(core, part->start);
            if (first.size > part->end - part->start)
                first.size = part->end - part->start;
            part->head = head_of_file(first);
        }
}

/* Sets what must be added to an address of the part for the address in the ELF file, by the program headers of the same file in
 * a part before. A file that has none is no ELF file: then for the offset in it. */
static void learn(const struct parts *parts, struct part *part)
{
    enum { MOST_PARTS = 64 };   /* an ELF file has a part for each of its few segments */
    const struct part *first = part - parts->list < MOST_PARTS ? parts->list : part - MOST_PARTS + 1;

    part->known = PLACED;
    part->bias = part->offset - part->start;
    for (; first <= part; first++)
        if (first->head.at && !strcmp(first->path, part->path)) {
            part->known = is_laid_out(first, part, &part->bias) ? PLACED : NOWHERE;
            if (part->known == PLACED)
                return;
        }
}

/* The part that has the address, or NULL: its bias may not be known yet. */
struct part *part_at(const struct parts *parts, uint64_t address)
{
    size_t low = 0, high = parts->count;

    if (!high || address < parts->list[0].start)
        return NULL;
    while (low < high) {
        size_t middle = low + (high - low) / 2;
        if (parts->list[middle].end <= address)
            low = middle + 1;
        else
            high = middle;
    }
    return low == parts->count || parts->list[low].start > address ? NULL : parts->list + low;
}

/* The same once its bias is known. NULL too where it is not known which address of the file that is. */
const struct part *part_of(const struct parts *parts, uint64_t address)
{
    struct part *part = part_at(parts, address);

    if (part && part->known == NOT_YET)
        learn(parts, part);
    return part && part->known == PLACED ? part : NULL;
}

/* The file's name without its folders. */
const char *name_of(const struct part *part)
{
    const char *slash = strrchr(part->path, '/');

    return slash ? slash + 1 : part->path;
}

/* Whether the file is of an allocator that takes the place of glibc's malloc. */
static int is_allocator(const char *name)
{
    return begins(name, name + strlen(name), "libjemalloc") || begins(name, name + strlen(name), "libtcmalloc")
        || begins(name, name + strlen(name), "libmimalloc");
}

/* The first part of a known allocator, or NULL. */
const struct part *other_allocator(const struct parts *parts)
{
    for (size_t i = 0; i < parts->count; i++)
        if (is_allocator(name_of(parts->list + i)))
            return parts->list + i;
    return NULL;
}

/* Whether the log may have the part's path once more. Each block may ask for one, and a path be a hundred times as long as a block: all paths
 * have at most four times the core's size, and 16 MiB. */
int takes_path(struct parts *parts, const struct part *part, uint64_t size)
{
    enum { TIMES = 4, MORE = 16 << 20 };
    uint64_t length = strlen(part->path);

    if (parts->is_full)
        return 0;
    parts->is_full = length > TIMES * size + MORE - parts->path_bytes;
    parts->path_bytes += length;
    if (parts->is_full)
        warn("paths of files are left out of the log from here on: they would be more than four times as large as the core");
    return !parts->is_full;
}
