/* The process that the user started. It never touches a file or the memory of others, so nothing can keep it: it hands signals on to the one that
 * does the work, a child of it; ends that by SIGKILL if it does not end by itself, or lets a process stand still for longer than it may; and removes
 * what is unfinished. If this process is killed, the kernel kills the other one too, and the threads go on. */
#define _GNU_SOURCE
#include <errno.h>
#include <signal.h>
#include <stdatomic.h>
#include <stdio.h>
#include <stdlib.h>
#include <string.h>
#include <sys/mman.h>
#include <sys/prctl.h>
#include <sys/wait.h>
#include <time.h>
#include <unistd.h>

#include "dump.h"

/* A process may be stopped for so many seconds, and for one more for each so many bytes of its core: a disk that takes less than 32 MiB a second
 * is taken for one that hangs. */
enum { BASE_SECONDS = 20, BYTES_A_SECOND = 32 << 20 };

enum { LOOK_NS = 50000000, GRACE_MS = 500, MOST_FILES = 2 };

/* What both processes see. */
static struct shared {
    struct timespec since;          /* when the process was stopped */
    atomic_bool stands;
    atomic_bool is_told;            /* a fault was told: what follows is the end */
    _Atomic double seconds;         /* how long it may be stopped */
    struct made {
        char part[MOST_PATH], path[MOST_PATH];
        atomic_int state;           /* enum made_state */
    } made[MOST_FILES];
} *shared;

static double asked_seconds;        /* of --hold, or 0 */

void begin_standstill(struct timespec since)
{
    shared->since = since;
    shared->seconds = asked_seconds > 0 ? asked_seconds : BASE_SECONDS;
    shared->stands = true;
}

void fit_standstill(uint64_t bytes)
{
    if (!(asked_seconds > 0))
        shared->seconds = BASE_SECONDS + (double)bytes / BYTES_A_SECOND;
}

void end_standstill(void)
{
    shared->stands = false;
}

/* Whether the process is stopped for longer than it may, and this much longer. */
static bool is_overdue(double more_ms)
{
    return shared->stands && milliseconds_since(shared->since) > shared->seconds * 1000 + more_ms;
}

void end_if_overdue(void)
{
    if (is_overdue(0))
        fail("the process was stopped for %g s (--hold) and resumed: the disk or its own memory did not answer; %s",
             shared->seconds, what_is_not);
}

/* Says that a fault is told now. Gives whether it was not told before. */
bool tells_first(void)
{
    return !shared || !atomic_exchange(&shared->is_told, true);
}

void note_file(size_t number, const char *part, const char *path, enum made_state state)
{
    struct made *made = shared->made + number;

    if (snprintf(made->part, MOST_PATH, "%s", part) >= MOST_PATH || snprintf(made->path, MOST_PATH, "%s", path) >= MOST_PATH)
        fail("%s: %s", path, strerror(ENAMETOOLONG));
    made->state = state;
}

void set_made(size_t number, enum made_state state)
{
    shared->made[number].state = state;
}

static struct timespec now(void)
{
    struct timespec time;

    clock_gettime(CLOCK_MONOTONIC, &time);
    return time;
}

/* Whether the child ends within half a second. */
static bool has_ended(pid_t child, int *status)
{
    struct timespec since = now();

    while (milliseconds_since(since) < GRACE_MS) {
        if (waitpid(child, status, WNOHANG) == child)
            return true;
        nanosleep(&(struct timespec){ .tv_nsec = LOOK_NS / 10 }, NULL);
    }
    return false;
}

/* By a child, since a disk that hangs would keep this process; then the files go when the disk answers. */
static void remove_files(void)
{
    int status;
    pid_t child = fork();

    if (child < 0)
        return;
    if (child) {
        has_ended(child, &status);
        return;
    }
    for (struct made *made = shared->made; made < shared->made + MOST_FILES; made++)
        if (made->state != NOT_MADE)
            unlink(made->state == UNFINISHED ? made->part : made->path);
    _exit(0);
}

/* Ends the child that does not end, and says why. */
static void kill_child(pid_t child, int asked)
{
    int status;

    kill(child, SIGKILL);
    has_ended(child, &status);
    if (!tells_first())
        return;
    if (asked)
        dprintf(STDERR_FILENO, "%s: ended by signal %d: %s\n", tracer_name, asked, what_is_not);
    else
        dprintf(STDERR_FILENO, "%s: the process was stopped for %g s (--hold) and resumed: %s\n", tracer_name,
                (double)shared->seconds, what_is_not);
}

/* Waits for the child, and gives its status: that of waitpid, or that of a refusal if it had to be killed. */
static int wait_for_child(pid_t child, const sigset_t *awaited)
{
    struct timespec since = { 0 };
    int status, asked = 0;
    bool ends = false;

    for (;;) {
        int signal = sigtimedwait(awaited, NULL, &(struct timespec){ .tv_nsec = LOOK_NS });
        if (waitpid(child, &status, WNOHANG) == child)
            return status;
        if (signal > 0 && signal != SIGCHLD) {
            asked = signal;
            kill(child, signal);
        }
        if (!ends && (asked || shared->is_told))
            ends = true, since = now();
        if ((ends && milliseconds_since(since) > GRACE_MS) || is_overdue(GRACE_MS)) {
            kill_child(child, asked);
            return REFUSED << 8;
        }
    }
}

static void stay_in_front(pid_t child, const sigset_t *awaited)
{
    int status = wait_for_child(child, awaited);

    if (status)
        remove_files();
    if (WIFSIGNALED(status) && tells_first())
        dprintf(STDERR_FILENO, "%s: ended by signal %d: %s\n", tracer_name, WTERMSIG(status), what_is_not);
    exit(WIFEXITED(status) ? WEXITSTATUS(status) : REFUSED);
}

/* Returns in the process that does the work. */
void leave_front(double seconds, const sigset_t *ends)
{
    sigset_t awaited = *ends, before;
    pid_t front = getpid(), child;

    asked_seconds = seconds;
    shared = mmap(NULL, sizeof *shared, PROT_READ | PROT_WRITE, MAP_SHARED | MAP_ANONYMOUS, -1, 0);
    if (shared == MAP_FAILED)
        shared = NULL, fail("no memory for what two processes share");
    sigaddset(&awaited, SIGCHLD);
    signal(SIGCHLD, SIG_DFL);       /* whoever started this may have it ignored, and then no child can be waited for */
    sigprocmask(SIG_BLOCK, &awaited, &before);
    child = fork();
    if (child < 0)
        fail("no process can be started: %s", strerror(errno));
    if (child)
        stay_in_front(child, &awaited);
    prctl(PR_SET_PDEATHSIG, SIGKILL);
    if (getppid() != front)
        _exit(REFUSED);
    sigprocmask(SIG_SETMASK, &before, NULL);
}
