/* The C library and ld.so, by what the process has in its memory, since the files may have been replaced. It may be
 * hostile: sizes are bounded. What can't be read of these two ends all; another file may be just mapped or unmapped. */
#include <stdio.h>
#include <stdlib.h>
#include <string.h>

#include "attach.h"

enum { MOST_HEADERS = 65536 / sizeof(Elf64_Phdr) /* as of Linux */ };

struct reading {
    const struct target *target;
    uint64_t address;
    void *to;
    size_t size;
    bool is_read;
};

static void read_now(void *argument)
{
    struct reading *reading = argument;

    reading->is_read = read_bytes(reading->target->process.witness, reading->address, reading->to, reading->size);
}

/* A page may be of a disk that does not answer, or the process's own to supply. */
bool try_get(const struct target *target, uint64_t address, void *to, size_t size)
{
    struct reading reading = { target, address, to, size, false };

    apart(read_now, &reading);
    return reading.is_read;
}

void get(const struct target *target, uint64_t address, void *to, size_t size)
{
    if (!try_get(target, address, to, size))
        fail("process %d: %zu bytes at 0x%llx can't be read", target->process.id, size, (unsigned long long)address);
}

/* Whether a page of the file may be run. */
static bool maps_code(const struct target *target, uint64_t inode)
{
    for (const struct mapping *m = target->maps.list; m < target->maps.list + target->maps.count; m++)
        if (m->flags & PF_X && m->is_file && m->inode == inode)
            return true;
    return false;
}

/* Whether something of it may be run: else the file is mapped as data. */
static bool is_code(const struct target *target, const struct span *code)
{
    for (const struct mapping *m = target->maps.list; m < target->maps.list + target->maps.count; m++)
        if (m->flags & PF_X && m->start < code->end && m->end > code->start)
            return true;
    return false;
}

/* Reads the program headers. Gives false if it is no ELF file, or mapped as data. */
static bool read_headers(struct target *target, const struct mapping *mapping, struct module *module,
                         Elf64_Phdr *dynamic)
{
    static Elf64_Phdr list[MOST_HEADERS];
    Elf64_Ehdr head;

    *module = (struct module){ .path = mapping->path, .base = mapping->start, .bias = mapping->start };
    if (!maps_code(target, mapping->inode) || !get_or_note(target, mapping->start, &head, sizeof head)
        || memcmp(head.e_ident, ELFMAG, SELFMAG)
        || head.e_ident[EI_CLASS] != ELFCLASS64 || head.e_machine != EM_X86_64 || head.e_phnum > MOST_HEADERS
        || head.e_phoff > mapping->end - mapping->start
        || !get_or_note(target, mapping->start + head.e_phoff, list, head.e_phnum * sizeof *list))
        return false;
    for (Elf64_Phdr *p = list; p < list + head.e_phnum; p++)
        if (p->p_type == PT_LOAD && !p->p_offset)
            module->bias = mapping->start - (p->p_vaddr & -(uint64_t)PAGE);
    for (Elf64_Phdr *p = list; p < list + head.e_phnum; p++) {
        if (p->p_type == PT_DYNAMIC)
            *dynamic = *p;
        if (p->p_type == PT_LOAD && p->p_flags & PF_X)
            module->code = (struct span){ module->bias + p->p_vaddr, module->bias + p->p_vaddr + p->p_memsz };
    }
    return is_code(target, &module->code);
}

static void drop(struct module *module)
{
    free(module->symbols);
    free(module->strings);
    *module = (struct module){ 0 };
}

static bool is_named(const char *path, const char *name, const char *old_name)
{
    const char *slash = strrchr(path, '/'), *last = slash ? slash + 1 : path;

    return !strncmp(last, name, strlen(name)) || !strncmp(last, old_name, strlen(old_name));
}

static void refuse_allocator(const struct target *target, const char *path)
{
    if (strstr(path, "/leak_trace.so"))
        fail("process %d runs under leak_trace already", target->process.id);
    fail("process %d has another allocator, of %s: only the blocks of glibc's malloc can be traced so; start it by leak_trace",
         target->process.id, path);
}

/* Two C libraries, each with a malloc (dlmopen): the one that jumps to an island is the one that was attached. */
static bool replaces(struct target *target)
{
    if (!target->libc.base)
        return true;
    if (target->refuses_others)
        fail("process %d has two C libraries: nobody knows which of them allocates", target->process.id);
    return !find_by_jumps(target);
}

/* Takes the file for what it is: libc, ld.so, or one that may not have a malloc. If it has one its path is put into `other`. */
static void take_module(struct target *target, const struct mapping *mapping, const char **other)
{
    struct module module = { 0 };
    Elf64_Phdr dynamic = { 0 };
    uint64_t size;
    bool is_libc = is_named(mapping->path, "libc.so.6", "libc-2.");
    bool is_loader = is_named(mapping->path, "ld-linux-x86-64.so", "ld-2.");

    if (!is_libc && !is_loader && !target->refuses_others)
        return;
    if (!read_headers(target, mapping, &module, &dynamic))
        return;
    bool is_read = read_tables(target, &module, &dynamic);
    if (!is_read && (is_libc || is_loader))
        fail("process %d: %s", target->process.id, target->unread);
    if (is_libc && replaces(target)) {
        drop(&target->libc);
        target->libc = module;
    } else if (is_loader && !target->loader.base) {
        target->loader = module;
    } else {
        if (is_read && !is_libc && !is_loader
            && (find_symbol(&module, "malloc", &size) || find_symbol(&module, "free", &size)))
            *other = mapping->path;
        drop(&module);
    }
}

/* Finds libc and ld.so, and refuses a process with another malloc. Notes if there is a file that can't be read. */
void find_modules(struct target *target)
{
    const char *other = NULL;

    drop(&target->libc);
    drop(&target->loader);
    target->symbol_bytes = 0;
    target->unread[0] = 0;
    for (const struct mapping *m = target->maps.list; m < target->maps.list + target->maps.count; m++) {
        end_if_asked();
        if (m->is_file && !m->offset && m->kind == PRIVATE_FILE && m->path[0] == '/' && strncmp(m->path, "/memfd:leak_attach_start", 24))
            take_module(target, m, &other);
    }
    if (!target->libc.base || !target->loader.base)
        fail("process %d has no libc.so.6 and ld.so of glibc mapped: it is static, or has another C library", target->process.id);
    if (target->refuses_others && other)
        refuse_allocator(target, other);
}

/* The same, if code of files was mapped or unmapped since the last time, or could not be read then. */
void read_files(struct target *target)
{
    uint64_t sum = 0xcbf29ce484222325ull;

    for (const struct mapping *m = target->maps.list; m < target->maps.list + target->maps.count; m++)
        if (m->is_file && m->flags & PF_X)
            sum = (((sum ^ m->start) * 0x100000001b3ull ^ m->end) * 0x100000001b3ull ^ m->inode) * 0x100000001b3ull;
    if (sum != target->files || *target->unread)
        find_modules(target);
    target->files = sum;
}
