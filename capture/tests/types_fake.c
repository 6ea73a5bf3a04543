/* Stands for leak_types, with what a file could make it say: the kind is CASE, AT the address of a variable there. */
#include <fcntl.h>
#include <stdio.h>
#include <stdlib.h>
#include <string.h>
#include <sys/prctl.h>
#include <sys/resource.h>
#include <unistd.h>
#include <grp.h>

enum { RIGHTS, WITHIN_ITSELF, LONG_ARRAYS, ENDLESS, ODD_NUMBERS, ODD_NAMES, FAILS, MANY_LINKS,
       MANY_BEGINNINGS, MUCH, SLOW, LINGERS };

/* How many descriptors it has beside the three that it is given. */
static int count_open(void)
{
    int count = 0;

    for (int i = STDERR_FILENO + 1; i < 1000; i++)
        count += fcntl(i, F_GETFD) >= 0;
    return count;
}

static void tell_rights(void)
{
    struct rlimit memory, seconds;
    char magic[4] = "";

    getrlimit(RLIMIT_AS, &memory);
    getrlimit(RLIMIT_CPU, &seconds);
    if (pread(STDIN_FILENO, magic, sizeof magic, 0) != sizeof magic)
        exit(1);
    printf("pointer 2\nstruct 40 user_%d_groups_%d_news_%d_", (int)getuid(), getgroups(0, NULL),
           prctl(PR_GET_NO_NEW_PRIVS, 0, 0, 0, 0));
    printf("memory_%d_seconds_%d_file_%.3s_open_%d\n", (int)(memory.rlim_cur >> 28), (int)seconds.rlim_cur, magic + 1,
           count_open());
}

static void many(int count, const char *line)
{
    for (int i = 0; i < count; i++)
        puts(line);
}

/* A structure of a thousand structures, which are of many others that are of pointers to the first alone. */
static void tell_links(void)
{
    puts("pointer 2\nstruct 40 a"), many(1000, "member 0 3");
    puts("struct 800000000 b"), many(100, "member 0 4");
    puts("struct 8000000 c"), many(1000, "member 0 5");
    puts("struct 8000 d"), many(1000, "member 0 1");
}

int main(void)
{
    if (CASE == RIGHTS)
        tell_rights();
    if (CASE == WITHIN_ITSELF)
        puts("pointer 2\nstruct 40 a"), many(1000, "member 0 2");
    if (CASE == LONG_ARRAYS)
        puts("pointer 2\nstruct 40 a\nmember 0 3\narray 1000000000 4\narray 1000000000 1");
    while (CASE == ENDLESS)
        puts("other something");
    if (CASE == ODD_NUMBERS)
        puts("member 0 1\nbegins 4\nflexible 3\npointer 99999999999999999999\nstruct 18446744073709551615 a\n"
             "member 18446744073709551608 1\narray 18446744073709551615 3\npointer\nstruct\narray\nmember 1\n"
             "variable 18446744073709551615 1\nvariable 0 7\nvariable 5\nvariable");
    if (CASE == ODD_NAMES)
        puts("pointer 2\nstruct 40 a < b + 0x10 0x20\033[1m\\ \342\200\256c");
    if (CASE == MANY_LINKS)
        tell_links();
    if (CASE == MANY_BEGINNINGS)
        puts("pointer 2\nstruct 40 a"), many(1000000, "begins 1"), puts("struct 8 b"), many(500000, "member 0 1");
    if (CASE == MUCH)
        puts("pointer 2\nstruct 40 a"), many(9 << 20, "member 0 1");
    if (CASE == SLOW)
        sleep(3);
    printf("variable %lu %d\nend\n", (unsigned long)AT, CASE == MANY_BEGINNINGS ? 3 : 1);
    fflush(stdout);
    if (CASE == LINGERS)
        close(STDOUT_FILENO), pause();
    return CASE == FAILS;
}
