/* leak_log CORE TABLE [--after LOG]: writes the blocks of a table that leak_trace.so kept as a log in the
 * format of glibc's mtrace, for leak_find, and before them what memory was freed. With --after it writes LOG
 * first, which it made of an earlier table of the same process, and then what came and went since. */
#include <stdlib.h>
#include <string.h>

#include "log.h"

const char program[] = "leak_log", usage[] = "usage: leak_log CORE TABLE [--after LOG] | leak_log --version\n", help[] =
    "Writes to standard output a log of the blocks in a table of leak_trace, for leak_find. leak_dump calls it.\n\n"
    "  CORE         a core of the process, of the same moment as the table\n"
    "  TABLE        a copy of the table\n"
    "  --after LOG  first writes LOG, made from an earlier table of the same process, and then what was allocated and\n"
    "               freed since\n"
    "  --version    prints the version\n\n"
    "status: 0; 2 if there is no log, with a line on standard error\n";

/* Writes the ends of the old blocks that are gone, and gives the new ones. A block of the earlier log is still
 * live if the later table has its start with a stamp of that time. Both ascend by start. */
static struct blocks write_ends(const struct blocks *old, const struct blocks *blocks)
{
    struct blocks fresh = *blocks;

    fresh.list = NULL, fresh.count = 0;
    for (size_t i = 0, k = 0; i < old->count || k < blocks->count;) {
        const struct block *was = old->list + i, *is = blocks->list + k;
        int gone = k == blocks->count || (i < old->count && was->start < is->start);
        int came = i == old->count || (k < blocks->count && is->start < was->start);
        int anew = !gone && !came && is->stamp > old->moment;
        if (gone || anew) {
            put_hex("- 0x", was->start);
            put_text("\n");
        }
        if (came || anew) {
            fresh.list = grown(fresh.list, fresh.count, sizeof *fresh.list);
            fresh.list[fresh.count++] = *is;
        }
        i += !came;
        k += !gone;
    }
    return fresh;
}

static void put_remark(const char *what, uint64_t number)
{
    put_text("= leak_log ");
    put_text(what);
    put_number(number);
    put_text("\n");
}

/* Says by a remark of the log, and to the user, that the core lacks memory. */
static void tell_kept_out(const struct blocks *blocks)
{
    if (!blocks->kept_out && !blocks->is_more_kept_out)
        return;
    put_remark("kept out ", blocks->kept_out);
    warn("the program keeps %s%llu bytes out of cores (MADV_DONTDUMP), which this core lacks, though undumped may not count them: "
         "blocks that only they point to are false positives; leak_dump PID has them", blocks->is_more_kept_out ? "more than " : "",
         (unsigned long long)blocks->kept_out);
}

/* Are blocks side by side, one in a hundred at least? glibc keeps 8 bytes between two. Those with one start are one. */
static int stand_side_by_side(const struct blocks *blocks)
{
    size_t count = 0;

    for (size_t i = 0; i + 1 < blocks->count; i++)
        count += blocks->list[i].size && blocks->list[i].start + blocks->list[i].size == blocks->list[i + 1].start;
    return count > blocks->count / 100;
}

/* jemalloc keeps addresses of blocks that are in use, which no option leaves out. Seen with 5.3: of 1,000 lost blocks of 24 bytes, of 1 KiB
 * and of 14 KiB + 1, 896, 742 and none were found. */
static void warn_of_records(const char *name)
{
    if (begins(name, name + strlen(name), "libjemalloc"))
        warn("%s keeps addresses of blocks, so leaks may be hidden where leak_walk can't read its heap: in each thread up to 200 of the newest of each size (not if the program "
             "starts with MALLOC_CONF=tcache:false), the first of each of its runs, as one in four of 1 KiB, and each of more than 14 KiB",
             name);
}

/* Says by a remark of the log whose the heap is, by the name of a library, or else by its blocks; and to the user, if it is not
 * glibc's. Gives whether it is. */
static int tell_allocator(const struct core *core, const struct blocks *blocks)
{
    const struct part *part = other_allocator(&core->parts);
    const char *name = part ? name_of(part) : stand_side_by_side(blocks) ? "unknown" : NULL;

    put_allocator(name ? name : "glibc");
    put_program(&core->start, &core->parts);
    if (name)
        warn("the allocator is %s: search with --other-heap --skip-ends", name), warn_of_records(name);
    return !name;
}

/* Writes the earlier log and the ends of its blocks, and gives the new blocks. */
static struct blocks write_old_log(const char *path, const struct blocks *blocks)
{
    struct file log = map_file(path);
    struct blocks old = read_log(log), fresh;

    if (old.base != blocks->base)
        fail("%s: the earlier log is of another process", path);
    put_bytes(log.bytes, log.size);
    fresh = write_ends(&old, blocks);
    if (fresh.moment < old.moment)
        fresh.moment = old.moment;
    return fresh;
}

/* One line, `@ CALLERS + 0xSTART 0xSIZE`. */
static void print_block(struct core *core, const struct block *block, uint64_t depth)
{
    put_text("@ ");
    put_callers(&core->parts, core->file.size, block, depth);
    put_hex(" + 0x", block->start);
    put_hex(" 0x", block->size);
    put_text("\n");
}

int main(int count, char **words)
{
    int is_later = count == 5 && !strcmp(words[3], "--after"), is_glibcs;

    if (count != 3 && !is_later)
        refuse_words(count, words);
    struct core core = read_core(words[1]);
    struct file table = map_file(words[2]);
    struct blocks blocks = read_table(table, &core), fresh = is_later ? write_old_log(words[4], &blocks) : blocks;

    put_hex("= leak_log moment 0x", fresh.moment);
    put_hex(" table 0x", fresh.base);
    put_text("\n");
    if (blocks.missed)
        put_remark("missed ", blocks.missed);
    put_files(&core.parts);
    tell_kept_out(&blocks);
    is_glibcs = tell_allocator(&core, &blocks);
    if (blocks.knows_freed && is_glibcs) /* others may have given it to who passed the table by, as operator new of jemalloc */
        write_freed(table, &core, &blocks);
    put_stacks_remark(&core.stacks, leave_out_stacks(&fresh, &blocks, (const struct table_head *)table.bytes, &core));
    if (fresh.count)
        qsort(fresh.list, fresh.count, sizeof *fresh.list, by_stamp);
    for (size_t i = 0; i < fresh.count; i++)
        print_block(&core, fresh.list + i, fresh.depth);
    put_end();
    return 0;
}
