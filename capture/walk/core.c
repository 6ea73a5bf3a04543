/* A core file: its segments and their words (gABI, Program Header; Linux, elf(5)). */
#include <stdlib.h>
#include <sys/mman.h>

#include "walk.h"

/* The notes that leak_core adds (dump/status.c). */
enum { NOTE_MEMORY = 0x4d454d, NOTE_SEALED = 0x4d454e };

static void read_notes(struct core *core, const uint8_t *at, const uint8_t *end)
{
    struct note note;

    while (next_note(&at, end, &note)) {
        if (is_note(&note, NT_FILE, "CORE"))
            add_parts(&core->parts, &note);
        if (is_note(&note, NT_AUXV, "CORE"))
            read_start(&core->start, &note);
        if (is_note(&note, NT_PRSTATUS, "CORE"))
            read_registers(core, &note);
        if (is_note(&note, NOTE_MEMORY, "LEAK_CORE"))
            core->is_by_leak_core = 1, read_ranges(core, &note, 1);
        if (is_note(&note, NOTE_SEALED, "LEAK_CORE"))
            read_ranges(core, &note, 0);
        read_signal_stacks(&core->stacks, &note);
        read_written(&core->parts, &note);
    }
}

/* Words that the kernel holds are a segment of leak_core's, and no memory of the process: it is left out. */
static void add_segment(struct core *core, const Elf64_Phdr *p)
{
    if (core->stacks.words_at && p->p_vaddr == core->stacks.words_at)
        return;
    if (p->p_filesz > p->p_memsz || p->p_memsz > UINT64_MAX - p->p_vaddr)
        fail("%s: the segment at 0x%llx has a wrong size", core->path, (unsigned long long)p->p_vaddr);
    core->segments = grown(core->segments, core->segment_count, sizeof *core->segments);
    core->segments[core->segment_count++] = (struct segment){
        .start = p->p_vaddr, .size = p->p_filesz, .end = p->p_vaddr + p->p_memsz,
        .bytes = p->p_filesz ? core->file.bytes + p->p_offset : NULL,
        .is_writable = (p->p_flags & PF_W) != 0, .is_code = (p->p_flags & PF_X) != 0 };
}

/* Sets of each writable segment where the writable memory that it is a part of begins; refuses segments that overlap. */
static void find_run_starts(struct core *core)
{
    for (size_t i = 0; i < core->segment_count; i++) {
        struct segment *s = core->segments + i, *before = i ? s - 1 : NULL;
        if (before && s->start < before->end)
            fail("%s: segments overlap at 0x%llx", core->path, (unsigned long long)s->start);
        s->run_start = s->start;
        if (before && before->is_writable && s->is_writable && before->end == s->start)
            s->run_start = before->run_start;
    }
}

static void find_run_ends(struct core *core)
{
    for (size_t i = core->segment_count; i--;) {
        struct segment *s = core->segments + i, *after = i + 1 < core->segment_count ? s + 1 : NULL;
        s->run_end = s->is_writable ? s->end : s->start;
        if (after && after->is_writable && s->is_writable && after->start == s->end)
            s->run_end = after->run_end;
    }
}

/* Sets of each segment where memory without a gap ends, that can be written or not, but is no file's. */
static void find_reaches(struct core *core)
{
    for (size_t i = core->segment_count; i--;) {
        struct segment *s = core->segments + i, *after = i + 1 < core->segment_count ? s + 1 : NULL;
        s->reach_end = after && after->start == s->end && !part_at(&core->parts, after->start) ? after->reach_end : s->end;
    }
}

/* What is dumped from the address on, without a gap within the segment. */
static struct memory dumped_at(void *core, uint64_t address)
{
    const struct segment *s = segment_at(core, address);

    if (!s || address - s->start >= s->size)
        return (struct memory){ NULL, 0 };
    return (struct memory){ s->bytes + (address - s->start), s->size - (address - s->start) };
}

struct core read_core(const char *path)
{
    struct core core = { .path = path, .file = map_file(path) };
    struct headers headers = headers_of(core.file);

    for (uint64_t i = 0; i < headers.count; i++) {
        Elf64_Phdr p = header_at(core.file, headers, i);
        if (p.p_type == PT_NOTE && p.p_filesz)
            read_notes(&core, core.file.bytes + p.p_offset, core.file.bytes + p.p_offset + p.p_filesz);
    }
    for (uint64_t i = 0; i < headers.count; i++) {
        Elf64_Phdr p = header_at(core.file, headers, i);
        if (p.p_type == PT_LOAD && p.p_memsz)
            add_segment(&core, &p);
    }
    if (core.segment_count)
        qsort(core.segments, core.segment_count, sizeof *core.segments, by_start);
    sort_registers(&core);
    fill_gaps(&core);
    find_run_starts(&core);
    find_run_ends(&core);
    sort_parts(&core.parts, dumped_at, &core);
    find_reaches(&core);
    return core;
}

/* The number of the first segment that ends after the address. */
size_t first_behind(const struct core *core, uint64_t address)
{
    size_t low = 0, high = core->segment_count;

    while (low < high) {
        size_t middle = low + (high - low) / 2;
        if (core->segments[middle].end <= address)
            low = middle + 1;
        else
            high = middle;
    }
    return low;
}

/* The segment that has the address, or NULL. */
const struct segment *segment_at(struct core *core, uint64_t address)
{
    size_t i;

    if (core->near && address >= core->near->start && address < core->near->end)
        return core->near;
    i = first_behind(core, address);
    if (i == core->segment_count || core->segments[i].start > address)
        return NULL;
    return core->near = core->segments + i;
}

/* Goes on to the window of the segment that has the address. Pages of a mapped file count as the program's memory while they
 * are mapped in, so now and then all are let go; they stay in the system's cache. */
static void move_window(struct core *core, const struct segment *s, uint64_t address)
{
    enum { WINDOW = 256 << 10, MOST_TOUCHED = 64 << 20 };
    uint64_t from = (address - s->start) & -(uint64_t)WINDOW, left = s->size - from;
    uint64_t size = left < WINDOW + sizeof(uint64_t) ? left : WINDOW + sizeof(uint64_t) - 1;

    core->window = (struct window){ s->start + from, size - sizeof(uint64_t) + 1, s->bytes + from };
    core->touched += WINDOW;
    if (core->touched < MOST_TOUCHED)
        return;
    madvise((void *)core->file.bytes, core->file.size, MADV_DONTNEED);
    core->touched = 0;
}

/* As `word`, of an address outside of the window. */
int word_elsewhere(struct core *core, uint64_t address, uint64_t *value)
{
    const struct segment *s = segment_at(core, address);

    if (!s || s->size < sizeof *value || address - s->start > s->size - sizeof *value)
        return 0;
    move_window(core, s, address);
    return word(core, address, value);
}

/* The address, or if the file has a hole there the page after it in the same segment, or the segment's end: a hole has zeros alone, and may be of
 * any size. */
uint64_t after_hole(struct core *core, uint64_t address)
{
    const struct segment *s = segment_at(core, address);
    uint64_t place, data;

    if (!s || address - s->start >= s->size)
        return address;
    place = s->bytes - core->file.bytes + (address - s->start);
    data = next_data(&core->file, place);
    if (data == place)
        return address;
    return data - place < s->start + s->size - address ? address + ((data - place) & -(uint64_t)PAGE) : s->start + s->size;
}

int is_word(struct core *core, uint64_t address, uint64_t wanted)
{
    uint64_t value;

    return word(core, address, &value) && value == wanted;
}
