/* Maps files as code, each as a C library would be: `lying [served FILE] [times N] FILE..`. The first file lies at
 * a known place. Below it is memory that is no code, above it memory that is shared. The last is mapped N times. Of
 * the served one nobody supplies the pages (userfaultfd(2)). */
#define _GNU_SOURCE
#include <fcntl.h>
#include <linux/userfaultfd.h>
#include <stdint.h>
#include <stdio.h>
#include <stdlib.h>
#include <string.h>
#include <sys/ioctl.h>
#include <sys/mman.h>
#include <sys/stat.h>
#include <sys/syscall.h>
#include <unistd.h>

enum { PAGE = 4096, SERVED_PAGES = 16 };

/* Above all places where the heap may begin. */
static const uintptr_t DATA_AT = 0x110000000, FIRST_AT = 0x120000000, SHARED_AT = 0x130000000;

static const uint8_t ENTRY[] = { 0x48, 0x83, 0xec, 0x18, 0x31, 0xc0, 0x31, 0xd2 };

static void check(int is_right, const char *what)
{
    if (!is_right)
        perror(what), exit(3);
}

static void map(const char *path, void *at)
{
    struct stat about;
    int file = open(path, O_RDONLY);
    check(file >= 0 && !fstat(file, &about), path);
    int kind = MAP_PRIVATE | (at ? MAP_FIXED_NOREPLACE : 0);
    check(mmap(at, about.st_size, PROT_READ | PROT_EXEC, kind, file, 0) != MAP_FAILED, "mmap");
    close(file);
}

static void put_entry(uintptr_t at, int rights, int kind)
{
    void *memory = mmap((void *)at, PAGE, PROT_READ | PROT_WRITE, kind | MAP_ANONYMOUS | MAP_FIXED_NOREPLACE, -1, 0);
    check(memory == (void *)at, "mmap");
    memcpy(memory, ENTRY, sizeof ENTRY);
    mprotect(memory, PAGE, rights);
}

static void serve(const char *path)
{
    int file = open(path, O_RDWR | O_CREAT, 0600), served = syscall(SYS_userfaultfd, O_CLOEXEC);
    struct uffdio_api api = { .api = UFFD_API };
    size_t bytes = SERVED_PAGES * PAGE;
    check(file >= 0 && !ftruncate(file, bytes) && served >= 0 && !ioctl(served, UFFDIO_API, &api), "userfaultfd");
    void *memory = mmap(NULL, bytes, PROT_READ | PROT_WRITE | PROT_EXEC, MAP_PRIVATE, file, 0);
    struct uffdio_register range = { { (uintptr_t)memory, bytes }, UFFDIO_REGISTER_MODE_MISSING, 0 };
    check(!ioctl(served, UFFDIO_REGISTER, &range), "userfaultfd");
}

int main(int count, char **words)
{
    long times = 1;
    int at = 1;

    put_entry(DATA_AT, PROT_READ | PROT_WRITE, MAP_PRIVATE);
    put_entry(SHARED_AT, PROT_READ | PROT_WRITE | PROT_EXEC, MAP_SHARED);
    if (at + 1 < count && !strcmp(words[at], "served"))
        serve(words[at + 1]), at += 2;
    if (at + 1 < count && !strcmp(words[at], "times"))
        times = atol(words[at + 1]), at += 2;
    for (int k = at; k < count; k++)
        map(words[k], k == at ? (void *)FIRST_AT : NULL);
    for (long i = 1; i < times; i++)
        map(words[count - 1], NULL);
    puts("ready");
    fflush(stdout);
    pause();
}
