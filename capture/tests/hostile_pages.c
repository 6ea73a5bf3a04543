/* Memory whose missing pages the program itself is to supply (userfaultfd(2)), and never does: who reads one waits. Prints what is where.
 * With a word one mapping of a file lacks each second page that the file has, so that a core has many segments of it. */
#define _GNU_SOURCE
#include <fcntl.h>
#include <linux/userfaultfd.h>
#include <stdint.h>
#include <stdio.h>
#include <stdlib.h>
#include <sys/ioctl.h>
#include <sys/mman.h>
#include <sys/syscall.h>
#include <unistd.h>

enum { PAGE = 4096, PAGES = 16, MANY = 1024 };

static const uint64_t MARK = 0x1122334455667788;
static int served;

static char *map(int pages, int flags, int file)
{
    return mmap(NULL, pages * PAGE, PROT_READ | PROT_WRITE, flags, file, 0);
}

static void be_served(char *memory, int pages, uint64_t mode)
{
    struct uffdio_register range = { .range = { (uintptr_t)memory, pages * PAGE }, .mode = mode };

    if (ioctl(served, UFFDIO_REGISTER, &range))
        perror("userfaultfd"), exit(3);
}

static void put(const char *name, char *place)
{
    *(uint64_t *)place = MARK;
    printf("%s %p\n", name, place);
}

static void serve_each_second(int file)
{
    char *here = map(MANY, MAP_SHARED, file), *there = map(MANY, MAP_SHARED, file);

    for (int page = 0; page < MANY; page++)
        (page % 2 ? there : here)[page * PAGE] = 1;
    be_served(there, MANY, UFFDIO_REGISTER_MODE_MINOR);
}

static void serve_some(int file)
{
    char *private = map(PAGES, MAP_PRIVATE | MAP_ANONYMOUS, -1), *shared = map(PAGES, MAP_SHARED | MAP_ANONYMOUS, -1);
    char *here = map(PAGES, MAP_SHARED, file), *there = map(PAGES, MAP_SHARED, file);

    put("private", private + 2 * PAGE);
    put("shared", shared + 3 * PAGE);
    here[0] = here[PAGE] = 0;
    put("both", here + 4 * PAGE);
    printf("there %p\n", there + 4 * PAGE);
    be_served(private, PAGES, UFFDIO_REGISTER_MODE_MISSING);
    be_served(shared, PAGES, UFFDIO_REGISTER_MODE_MISSING);
    be_served(there, PAGES, UFFDIO_REGISTER_MODE_MINOR);
}

int main(int count, char **words)
{
    struct uffdio_api api = { .api = UFFD_API, .features = UFFD_FEATURE_MINOR_SHMEM | UFFD_FEATURE_MISSING_SHMEM };
    int file = memfd_create("both", 0);

    (void)words;
    served = syscall(SYS_userfaultfd, O_CLOEXEC);
    if (served < 0 || ioctl(served, UFFDIO_API, &api) || ftruncate(file, (count > 1 ? MANY : PAGES) * PAGE))
        return 3;
    if (count > 1)
        serve_each_second(file);
    else
        serve_some(file);
    puts("ready");
    fflush(stdout);
    pause();
    return 0;
}
