/* Runs leak_types over a file that anybody may have made: with limits of memory, time and output, as root with the
 * rights of nobody, and with nothing but the open file. */
#define _GNU_SOURCE
#include <errno.h>
#include <fcntl.h>
#include <grp.h>
#include <limits.h>
#include <poll.h>
#include <signal.h>
#include <stdlib.h>
#include <sys/prctl.h>
#include <sys/resource.h>
#include <sys/stat.h>
#include <sys/wait.h>
#include <time.h>
#include <unistd.h>

#include "types.h"

#ifndef ALL_SECONDS
#define ALL_SECONDS 600
#endif

enum { NOBODY = 65534, MIB = 1 << 20, MOST_OUTPUT = 128 * MIB, PART = 1 << 16 }; /* Linux, overflowuid: owns nothing */

struct limits {
    uint64_t memory, seconds;
    int64_t end;                /* by the clock, in milliseconds */
    uint64_t output;
};

static int64_t now(void)
{
    struct timespec time;

    clock_gettime(CLOCK_MONOTONIC, &time);
    return time.tv_sec * 1000 + time.tv_nsec / 1000000;
}

/* What all files together may take: a process may have mapped any number of them. */
struct allowance allowance_of_all(void)
{
    return (struct allowance){ ALL_SECONDS * 1000, MOST_OUTPUT };
}

/* What may be taken for a file of this size: as for the programs that leak_lines runs, and no more than is left. */
static struct limits limits_for(uint64_t size, const struct allowance *left)
{
    uint64_t memory = 256 * (uint64_t)MIB + 16 * size, seconds = 30 + size / (16 * MIB), most = (uint64_t)8192 * MIB;
    int64_t clock = 4 * 1000 * (int64_t)seconds;

    return (struct limits){ memory < most ? memory : most, seconds,
                            now() + (clock < left->milliseconds ? clock : left->milliseconds), left->bytes };
}

/* The program beside this one, or -1. */
static int open_reader(void)
{
    char path[PAGE];
    ssize_t length = readlink("/proc/self/exe", path, sizeof path);
    char *slash = length > 0 && length < (ssize_t)sizeof path ? memrchr(path, '/', length) : NULL;

    if (!slash || slash + sizeof "/leak_types" > path + sizeof path)
        return -1;
    strcpy(slash, "/leak_types");
    return open(path, O_PATH | O_CLOEXEC);
}

static int is_limited(int resource, uint64_t soft, uint64_t hard)
{
    struct rlimit limit = { soft, hard };

    return !setrlimit(resource, &limit);
}

/* Whether all users of the system are there, or only some, as in a user namespace. */
static int is_whole_system(void)
{
    unsigned long first = 0, outside = 0, count = UINT_MAX;
    FILE *map = fopen("/proc/self/uid_map", "re");
    int found = map && fscanf(map, "%lu %lu %lu", &first, &outside, &count) == 3;

    if (map)
        fclose(map);
    return !found || (!first && !outside && count == UINT_MAX);
}

/* In a user namespace that has no nobody, root has no more rights than who made it. */
static int has_no_rights(void)
{
    if (geteuid())
        return 1;
    return (!setgroups(0, NULL) && !setresgid(NOBODY, NOBODY, NOBODY) && !setresuid(NOBODY, NOBODY, NOBODY))
        || !is_whole_system();
}

/* What the child becomes. The death signal comes after the change of the user, which resets it. What else the caller
 * had open is none of its business. */
static void become_reader(int reader, int file, int output, struct limits limits)
{
    char *words[] = { "leak_types", NULL }, *environment[] = { "LC_ALL=C", NULL };
    int nothing = open("/dev/null", O_WRONLY);

    close_range(STDERR_FILENO + 1, UINT_MAX, CLOSE_RANGE_CLOEXEC); /* from Linux 5.11 on */
    if (dup2(file, STDIN_FILENO) >= 0 && dup2(output, STDOUT_FILENO) >= 0 && dup2(nothing, STDERR_FILENO) >= 0
        && !chdir("/") && is_limited(RLIMIT_AS, limits.memory, limits.memory)
        && is_limited(RLIMIT_CPU, limits.seconds, limits.seconds + 1) && is_limited(RLIMIT_CORE, 0, 0)
        && has_no_rights() && !prctl(PR_SET_PDEATHSIG, SIGKILL) && !prctl(PR_SET_NO_NEW_PRIVS, 1, 0, 0, 0))
        fexecve(reader, words, environment);
    _exit(REFUSED);
}

/* What comes through the pipe, or NULL if it is too much or takes too long. */
static char *read_all(int input, const struct limits *limits, size_t *size)
{
    int64_t left;
    struct pollfd asked = { input, POLLIN, 0 };
    char *text = NULL;
    ssize_t got = 1;

    for (*size = 0; got && *size < limits->output; *size += got) {
        if (!(*size % PART) || !text)
            text = realloc(text, *size + 2 * PART);
        left = limits->end - now();
        if (!text || left <= 0 || poll(&asked, 1, left) <= 0)
            break;
        got = read(input, text + *size, PART - *size % PART);
        if (got < 0)
            break;
    }
    if (!got)
        return text;
    free(text);
    return NULL;
}

/* Whether it ends by itself with status 0. One that has said all and goes on is ended when the time is over. */
static int is_well_ended(pid_t child, int64_t end)
{
    int status = 0;
    pid_t ended;

    while (!(ended = waitpid(child, &status, WNOHANG)) && now() < end)
        usleep(1000);
    if (!ended)
        kill(child, SIGKILL), waitpid(child, &status, 0);
    return ended == child && WIFEXITED(status) && !WEXITSTATUS(status);
}

/* The output of leak_types for the open file, or NULL: it said too much, took too long, or ended otherwise. What it
 * took is taken off what is left. */
char *types_of_file(int file, struct allowance *left, size_t *size)
{
    int reader = open_reader(), ends[2];
    int64_t start = now();
    int is_right;
    struct limits limits;
    struct stat about;
    char *text;
    pid_t child;

    if (reader < 0)
        fail("there is no leak_types beside it: it was built without libdw, of elfutils");
    if (fstat(file, &about) || pipe2(ends, O_CLOEXEC))
        fail("can't run leak_types: %s", strerror(errno));
    limits = limits_for(about.st_size, left);
    child = fork();
    if (child < 0)
        fail("can't run leak_types: %s", strerror(errno));
    if (!child)
        become_reader(reader, file, ends[1], limits);
    close(ends[1]);
    close(reader);
    text = read_all(ends[0], &limits, size);
    close(ends[0]);
    if (!text)
        kill(child, SIGKILL);
    is_right = is_well_ended(child, limits.end) && text;
    left->milliseconds -= now() - start;
    if (is_right) {
        left->bytes -= *size;
        return text;
    }
    free(text);
    return NULL;
}
