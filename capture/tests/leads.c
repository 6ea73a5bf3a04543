/* leads CORE LOG REPORT [PID]: a search that knows nothing of any allocator. Looks for words that lead to the lost blocks of the report, at
 * each byte of the core and in its registers, and, of a living process, for such numbers in the texts of /proc. A word in a lost block
 * does not count. Prints how many blocks are lost, to how many of them some word leads, and to how many of these only words in memory
 * that the log says is free. A line on standard error tells the first word of each other one. */
#include <ctype.h>
#include <dirent.h>
#include <elf.h>
#include <fcntl.h>
#include <stdint.h>
#include <stdio.h>
#include <stdlib.h>
#include <string.h>
#include <sys/mman.h>
#include <sys/procfs.h>
#include <sys/stat.h>

struct range {
    uint64_t start, end;        /* the end is included */
    int is_led_to, is_led_to_by_free;
};

struct ranges {
    struct range *list;
    size_t count;
};

static struct ranges lost, unused;

static void add(struct ranges *ranges, uint64_t start, uint64_t end)
{
    if (!(ranges->count & (ranges->count - 1)))
        ranges->list = realloc(ranges->list, (ranges->count ? 2 * ranges->count : 1) * sizeof *ranges->list);
    ranges->list[ranges->count++] = (struct range){ start, end, 0, 0 };
}

static int by_start(const void *a, const void *b)
{
    uint64_t x = *(const uint64_t *)a, y = *(const uint64_t *)b;

    return (x > y) - (x < y);
}

/* The range that has the address, or NULL. */
static struct range *find(const struct ranges *ranges, uint64_t address)
{
    size_t low = 0, high = ranges->count;

    while (low < high) {
        size_t middle = low + (high - low) / 2;
        if (ranges->list[middle].end < address)
            low = middle + 1;
        else
            high = middle;
    }
    return low < ranges->count && ranges->list[low].start <= address ? ranges->list + low : NULL;
}

/* Notes a word at an address, or in what is named. */
static void look(uint64_t word, uint64_t at, const char *what)
{
    if (!lost.count || word < lost.list[0].start || word > lost.list[lost.count - 1].end)
        return;
    struct range *block = find(&lost, word);
    if (!block || (at && find(&lost, at)))
        return;
    if (at && find(&unused, at)) {
        block->is_led_to_by_free = 1;
        return;
    }
    if (!block->is_led_to++)
        fprintf(stderr, "0x%lx is led to by 0x%lx in %s 0x%lx\n", block->start, word, what, at);
}

static void read_lost(const char *path)
{
    char line[1024];
    uint64_t start, size;
    FILE *file = fopen(path, "r");

    while (file && fgets(line, sizeof line, file))
        if (sscanf(line, "leak 0x%lx %lu", &start, &size) == 2)
            add(&lost, start, start + size);
    qsort(lost.list, lost.count, sizeof *lost.list, by_start);
}

/* What was free: `+ 0xSTART 0xSIZE` and at once `- 0xSTART`. */
static void read_unused(const char *path)
{
    static char line[1 << 16];
    uint64_t start, size, end;
    FILE *file = fopen(path, "r");

    while (file && fgets(line, sizeof line, file))
        if (sscanf(line, "+ 0x%lx 0x%lx", &start, &size) == 2 && fgets(line, sizeof line, file) && sscanf(line, "- 0x%lx", &end) == 1)
            add(&unused, start, start + size - 1);
    qsort(unused.list, unused.count, sizeof *unused.list, by_start);
}

static void look_at_notes(const char *at, const char *end)
{
    while (at + sizeof(Elf64_Nhdr) <= end) {
        const Elf64_Nhdr *head = (const void *)at;
        const char *content = at + sizeof *head + ((head->n_namesz + 3) & ~3u);
        for (size_t i = 0; (head->n_type == NT_PRSTATUS || head->n_type == NT_X86_XSTATE) && i + 8 <= head->n_descsz; i++) {
            uint64_t word;
            memcpy(&word, content + i, sizeof word);
            look(word, 0, "registers");
        }
        at = content + ((head->n_descsz + 3) & ~3u);
    }
}

static void look_at_core(const char *path)
{
    struct stat about;
    int file = open(path, O_RDONLY);
    uint64_t word;

    if (file < 0 || fstat(file, &about))
        exit(2);
    const char *core = mmap(NULL, about.st_size, PROT_READ, MAP_PRIVATE, file, 0);
    const Elf64_Ehdr *head = (const void *)core;
    const Elf64_Shdr *extended = (const void *)(core + head->e_shoff);
    size_t count = head->e_phnum == PN_XNUM ? extended->sh_info : head->e_phnum;
    for (const Elf64_Phdr *p = (const void *)(core + head->e_phoff), *end = p + count; p < end; p++) {
        if (p->p_type == PT_NOTE)
            look_at_notes(core + p->p_offset, core + p->p_offset + p->p_filesz);
        for (uint64_t i = 0; p->p_type == PT_LOAD && i + 8 <= p->p_filesz; i++) {
            memcpy(&word, core + p->p_offset + i, sizeof word);
            look(word, p->p_vaddr + i, "memory");
        }
    }
}

/* Each number of a text, as hexadecimal and as decimal. */
static void look_at_text(const char *path)
{
    static char text[1 << 20];
    FILE *file = fopen(path, "r");
    size_t size = file ? fread(text, 1, sizeof text - 1, file) : 0;

    text[size] = 0;
    for (char *at = text; *at; at++)
        if (isxdigit((unsigned char)*at) && (at == text || !isxdigit((unsigned char)at[-1]))) {
            look(strtoull(at, NULL, 16), 0, path);
            look(strtoull(at, NULL, 10), 0, path);
        }
    if (file)
        fclose(file);
}

static void look_at_folder(const char *process, const char *name)
{
    char path[512];
    struct dirent *entry;

    snprintf(path, sizeof path, "/proc/%s/%s", process, name);
    DIR *folder = opendir(path);
    while (folder && (entry = readdir(folder))) {
        snprintf(path, sizeof path, "/proc/%s/%s/%s", process, name, entry->d_name);
        look_at_text(path);
    }
}

int main(int count, char **words)
{
    static const char *texts[] = { "timers", "syscall", "stat", "status", "auxv" };
    char path[512];
    size_t led = 0, by_free = 0;

    if (count < 4)
        return 2;
    read_unused(words[2]);
    read_lost(words[3]);
    look_at_core(words[1]);
    for (size_t i = 0; count > 4 && i < sizeof texts / sizeof *texts; i++) {
        snprintf(path, sizeof path, "/proc/%s/%s", words[4], texts[i]);
        look_at_text(path);
    }
    if (count > 4)
        look_at_folder(words[4], "fdinfo");
    for (size_t i = 0; i < lost.count; i++) {
        led += lost.list[i].is_led_to || lost.list[i].is_led_to_by_free;
        by_free += !lost.list[i].is_led_to && lost.list[i].is_led_to_by_free;
    }
    printf("%zu %zu %zu\n", lost.count, led, by_free);
    return 0;
}
