/* Maps a library's segments as ld.so does, and unmaps them, thousands of times a second: `vanishing FILE`. Who looks at
 * its files while it runs finds one that is gone before its tables are read. */
#include <elf.h>
#include <fcntl.h>
#include <stdio.h>
#include <stdlib.h>
#include <sys/mman.h>
#include <time.h>
#include <unistd.h>
enum { PAGE = 4096, MOST = 1 << 24, MAPPED_NS = 60000, GONE_NS = 30000 };

static void spin(long nanoseconds)
{
    struct timespec since, now;
    clock_gettime(CLOCK_MONOTONIC, &since);
    do
        clock_gettime(CLOCK_MONOTONIC, &now);
    while ((now.tv_sec - since.tv_sec) * 1000000000 + now.tv_nsec - since.tv_nsec < nanoseconds);
}

static void map_segment(int file, char *base, const Elf64_Phdr *p)
{
    size_t below = p->p_vaddr % PAGE;
    int protection = PROT_READ | (p->p_flags & PF_X ? PROT_EXEC : 0);
    mmap(base + p->p_vaddr - below, p->p_filesz + below, protection, MAP_PRIVATE | MAP_FIXED, file,
         p->p_offset - below);
}

int main(int count, char **words)
{
    int file = count == 2 ? open(words[1], O_RDONLY) : -1;
    static union { char bytes[PAGE]; Elf64_Ehdr head; } first;
    if (read(file, &first, PAGE) != PAGE)
        return 1;
    const Elf64_Phdr *list = (const Elf64_Phdr *)(first.bytes + first.head.e_phoff);
    puts("ready");
    fflush(stdout);
    for (;;) {
        char *volatile block = malloc(100), *base = mmap(NULL, MOST, PROT_NONE, MAP_PRIVATE | MAP_ANONYMOUS, -1, 0);
        for (int i = 0; i < first.head.e_phnum; i++)
            if (list[i].p_type == PT_LOAD)
                map_segment(file, base, list + i);
        spin(MAPPED_NS);
        munmap(base, MOST);
        spin(GONE_NS);
        free(block);
    }
}
