/* leak_walk [--partial] [--quiet] [--names TABLE] [--after LOG] CORE | --arenas CORE | --unused TABLE CORE: walks the heap of
 * glibc's malloc inside a core, and those of other allocators, and writes a log in mtrace's format for leak_find: which blocks were in use, and which memory
 * was free. It needs no symbols and no version, and the process no preparation. With --names a table of leak_trace.so tells who
 * asked for blocks. With --after it writes LOG first, which it made of an earlier core of the same process, and then what came
 * and went since. With --arenas it writes malloc's own words alone, and with --unused what was free too, for the log of a table. */
#include <stdio.h>
#include <stdlib.h>

#include "log.h"

enum { COMPLETE = 0, PARTIAL = 1 };

const char program[] = "leak_walk",
    usage[] = "usage: leak_walk [--partial] [--quiet] [--names TABLE] [--after LOG] CORE | leak_walk --arenas CORE | "
              "leak_walk --unused TABLE CORE | leak_walk --version\n", help[] =
    "Writes to standard output a log for leak_find: the blocks in use in the heap of glibc's malloc, or of another allocator\n"
    "that it knows.\n\n"
    "  CORE            a core of the process, written by leak_core, gcore or the kernel\n"
    "  --names TABLE   adds callers from leak_trace's table of the same moment\n"
    "  --after LOG     first writes LOG, made from an earlier core of the same process, and then what was allocated and\n"
    "                  freed since\n"
    "  --partial       goes on even if the heap is damaged, and says what is left out\n"
    "  --arenas        writes only where malloc's own lists begin, as freed memory\n"
    "  --unused TABLE  also writes what was free, if heap and table agree on the blocks\n"
    "  --quiet         does not print how many blocks, arenas and free chunks there are\n"
    "  --version       prints the version\n\n"
    "status: 0; 1 if --partial left something out, or a thread was inside the allocator; 2 if there is no log, with a line\n"
    "on standard error\n";

static int may_be_partial, is_partial;

/* Says what can't be read, and ends, or with --partial goes on. */
void damaged(const char *form, ...)
{
    va_list list;

    va_start(list, form);
    say(form, list);
    va_end(list);
    if (!may_be_partial)
        exit(REFUSED);
    is_partial = 1;
}

/* Counts steps that a right heap needs few of. */
void take_steps(struct heap *heap, uint64_t count, uint64_t near)
{
    if (count > heap->steps_left)
        fail("%s: damaged: too many chains that lead nowhere, the last near 0x%llx", heap->core->path, (unsigned long long)near);
    heap->steps_left -= count;
}

/* As many steps as there can be chunks, and as many again for what only looks like one. */
static void set_steps(struct heap *heap)
{
    enum { LEAST_CHUNK = 32, TRIES = 1 << 20 };
    uint64_t dumped = 0;

    for (size_t i = 0; i < heap->core->segment_count; i++)
        if (heap->core->segments[i].is_writable)
            dumped += heap->core->segments[i].size;
    heap->steps_left = 2 * (dumped / LEAST_CHUNK) + TRIES;
}

/* Finds all chunks, and which are in use. */
static void walk_chunks(struct heap *heap)
{
    for (size_t i = 0; i < heap->arena_count; i++)
        if (!heap->arenas[i].first_heap)
            find_main_heap(heap, heap->arenas + i);
    find_thread_heaps(heap);
    find_used(heap);
    take_fast_bins(heap);
    find_mapped(heap);
    take_caches(heap);
    if (!heap->region_count && !heap->mapping_count)
        heap->wanting = "chunk in glibc's heap";
}

/* Finds the heap of glibc's malloc, and those of others. */
static void walk(struct heap *heap)
{
    set_steps(heap);
    find_arenas(heap);
    if (!heap->is_unused && !heap->wanting)
        walk_chunks(heap);
    walk_others(heap);
    if (heap->wanting && !heap->others.count)
        refuse_heap(heap);
}

struct request {
    const char *core, *earlier, *names;
    int is_quiet, is_of_arenas, is_of_unused;
};

/* Reads an option and its value, and gives how many words they are, or 0. */
static int read_option(int count, char **words, struct request *request)
{
    const char *value = count > 2 ? words[1] : NULL;

    if (!strcmp(words[0], "--partial"))
        return may_be_partial = 1;
    if (!strcmp(words[0], "--quiet"))
        return request->is_quiet = 1;
    if (!strcmp(words[0], "--after") && value)
        return request->earlier = value, 2;
    if (!strcmp(words[0], "--names") && value)
        return request->names = value, 2;
    return 0;
}

/* Reads the words; without a core they are wrong. */
static struct request read_request(int count, char **words)
{
    struct request request = { 0 };
    int at = 1, read;

    if (count == 3 && !strcmp(words[1], "--arenas"))
        return (struct request){ .core = words[2], .is_of_arenas = 1 };
    if (count == 4 && !strcmp(words[1], "--unused"))
        return (struct request){ .core = words[3], .names = words[2], .is_of_unused = 1 };
    for (; at < count && words[at][0] == '-'; at += read)
        if (!(read = read_option(count - at, words + at, &request)))
            return request;
    if (at + 1 == count)
        request.core = words[at];
    return request;
}

static void write_old(struct heap *heap, const char *path, struct old_log *old, struct names *names)
{
    *old = read_old_log(path);
    if (!is_same_process(heap, old))
        fail("%s: the earlier log is of another process", path);
    if (names->head && !old->has_names)
        fail("%s: the earlier log is by the heap alone: make both of them with --names, or none", path);
    write_old_log(heap, old, names);
}

/* Writes malloc's own words, and with a table that agrees with the heap all that was free. */
static void write_beside(struct heap *heap, const struct request *request)
{
    struct names names;

    if (request->is_of_arenas) {
        find_arenas(heap);
        if (heap->wanting)
            refuse_heap(heap);
        write_arenas(heap);
    } else {
        walk(heap);
        names = read_names(request->names, heap->core);
        match_names(heap, &names);
        if (names.fitting != names.entries)
            fail("%s: table and heap do not agree", names.path);
        write_unused(heap);
    }
    put_end();
}

int main(int count, char **words)
{
    struct request request = read_request(count, words);
    struct old_log old = { 0 };
    struct names names = { 0 };

    if (!request.core)
        refuse_words(count, words);
    struct core core = read_core(request.core);
    struct heap heap = { .core = &core };
    if (request.is_of_arenas || request.is_of_unused)
        return write_beside(&heap, &request), COMPLETE;
    walk(&heap);
    if (request.names)
        names = read_names(request.names, &core), match_names(&heap, &names);
    if (request.earlier)
        write_old(&heap, request.earlier, &old, &names);
    else
        put_text("= Start\n");
    put_files(&core.parts);
    put_allocators(&heap);
    struct totals totals = write_log(&heap, &old, &names);
    put_end();
    if (!request.is_quiet)
        tell_totals(&heap, &totals, &names);
    tell_undumped_files(core.file, &core.parts, core.is_by_leak_core, NULL);
    tell_doubts(&heap);
    if (is_partial)
        warn("the log is not complete: %llu bytes of the heap are left out", (unsigned long long)heap.left_out);
    return is_partial || has_odd_ones(&heap) ? PARTIAL : COMPLETE;
}
