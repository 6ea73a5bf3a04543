/* What walk_step and the process that it steps share. */
#ifndef WALK_STEP_H
#define WALK_STEP_H
#define _GNU_SOURCE
#include <elf.h>
#include <fcntl.h>
#include <pthread.h>
#include <signal.h>
#include <stddef.h>
#include <stdint.h>
#include <stdio.h>
#include <stdlib.h>
#include <string.h>
#include <sys/mman.h>
#include <sys/procfs.h>
#include <sys/ptrace.h>
#include <sys/user.h>
#include <sys/wait.h>
#include <unistd.h>
enum { SLOTS = 160, PAGE_BYTES = 4096 };
struct block { uint64_t start, size; };
/* The blocks that the program surely has. While it is inside the allocator (`inside`), realloc may have `moving`, up to the smaller of the
 * old size and the new one, or already the block that it will give. */
struct truth { struct block held[SLOTS], moving, given; int inside; };
static struct truth *truth;
static inline void map_truth(int flags)
{
    int descriptor = open("truth", O_RDWR | flags, 0600);
    if (ftruncate(descriptor, sizeof *truth)) exit(2);
    truth = mmap(NULL, sizeof *truth, PROT_READ | PROT_WRITE, MAP_SHARED, descriptor, 0);
    close(descriptor);
}

/* A core of the stepped process, kept up to date: its writable memory but for the stack, and the stepped thread's registers. */
enum { MOST_MAPS = 64, NOTE_AT = PAGE_BYTES, MEMORY_AT = 2 * PAGE_BYTES };
struct __attribute__((packed)) note { Elf64_Nhdr head; char name[8]; struct elf_prstatus status; };
static struct block maps[MOST_MAPS];
static int map_count, memory, page_map, core_file;
static uint8_t *core;
static uint64_t core_size;

static inline void read_maps(pid_t process, uint64_t stack)
{
    char name[64], line[512], flags[8];
    uint64_t start, end;
    snprintf(name, sizeof name, "/proc/%d/maps", (int)process);
    FILE *list = fopen(name, "r");
    for (map_count = 0; map_count < MOST_MAPS && fgets(line, sizeof line, list);)
        if (sscanf(line, "%lx-%lx %7s", &start, &end, flags) == 3 && !strcmp(flags, "rw-p") && !strstr(line, "[stack]")
            && (stack < start || stack >= end))
            maps[map_count++] = (struct block){ start, end - start };
    fclose(list);
}
static inline void begin_core(void)
{
    Elf64_Phdr headers[MOST_MAPS + 1] = { { .p_type = PT_NOTE, .p_offset = NOTE_AT, .p_filesz = sizeof(struct note) } };
    Elf64_Ehdr head = { .e_type = ET_CORE, .e_machine = EM_X86_64, .e_version = 1, .e_phoff = sizeof head, .e_ehsize = sizeof head,
                        .e_phentsize = sizeof *headers, .e_phnum = map_count + 1 };
    struct note note = { .head = { sizeof "CORE", sizeof note.status, NT_PRSTATUS }, .name = "CORE" };
    if (core) munmap(core, core_size);
    core_size = MEMORY_AT;
    for (int i = 0; i < map_count; core_size += maps[i++].size)
        headers[i + 1] = (Elf64_Phdr){ .p_type = PT_LOAD, .p_flags = PF_R | PF_W, .p_offset = core_size, .p_vaddr = maps[i].start,
                                       .p_filesz = maps[i].size, .p_memsz = maps[i].size, .p_align = PAGE_BYTES };
    if (ftruncate(core_file, 0) || ftruncate(core_file, core_size)) exit(2);
    core = mmap(NULL, core_size, PROT_READ | PROT_WRITE, MAP_SHARED, core_file, 0);
    memcpy(head.e_ident, (uint8_t[]){ 0x7f, 'E', 'L', 'F', ELFCLASS64, ELFDATA2LSB, EV_CURRENT }, 7);
    memcpy(core, &head, sizeof head);
    memcpy(core + sizeof head, headers, sizeof *headers * (map_count + 1));
    memcpy(core + NOTE_AT, &note, sizeof note);
}
static inline uint64_t core_word(uint64_t address)
{
    uint8_t *from = core + MEMORY_AT;
    uint64_t value = 0;
    for (int i = 0; i < map_count; from += maps[i++].size)
        if (address >= maps[i].start && address - maps[i].start <= maps[i].size - sizeof value)
            memcpy(&value, from + (address - maps[i].start), sizeof value);
    return value;
}
static inline void put_registers(const struct user_regs_struct *registers)
{
    memcpy(core + NOTE_AT + offsetof(struct note, status.pr_reg), registers, sizeof *registers);
}
/* Copies the pages of a mapping that are there and differ. Gives whether any does. */
static inline int copy_map(const struct block *map, uint8_t *to)
{
    static uint64_t about[1 << 16];
    static uint8_t page[PAGE_BYTES];
    uint64_t count = map->size / PAGE_BYTES;
    int changed = 0;
    if (pread(page_map, about, 8 * count, map->start / PAGE_BYTES * 8) != (ssize_t)(8 * count)) exit(2);
    for (uint64_t i = 0; i < count; i++, to += PAGE_BYTES)
        if (about[i] >> 62 && pread(memory, page, PAGE_BYTES, map->start + i * PAGE_BYTES) == PAGE_BYTES && memcmp(to, page, PAGE_BYTES)) {
            memcpy(to, page, PAGE_BYTES);
            changed = 1;
        }
    return changed;
}
static inline int copy_memory(void)
{
    uint8_t *to = core + MEMORY_AT;
    int changed = 0;
    for (int i = 0; i < map_count; to += maps[i++].size)
        changed |= copy_map(maps + i, to);
    return changed;
}
#endif
