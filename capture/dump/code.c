/* The two short pieces of the C library's code that calls go by. They are looked for before the process is stopped, by a
 * process beside this one: it alone waits if a file is of a disk that does not answer. */
#define _GNU_SOURCE
#include <errno.h>
#include <fcntl.h>
#include <inttypes.h>
#include <poll.h>
#include <signal.h>
#include <stdio.h>
#include <stdlib.h>
#include <string.h>
#include <sys/prctl.h>
#include <sys/uio.h>
#include <sys/wait.h>
#include <unistd.h>

#include "calls.h"

enum { PIECE = 1 << 16, OVERLAP = 16, MOST_BYTES = 64 << 20, SEARCH_MS = 2000, LOOK_MS = 20 };

static const char CALL[] = "\x0f\x05\xc3", HANDLER_END[] = "\x48\xc7\xc0\x0f\x00\x00\x00\x0f\x05";

struct reading {
    pid_t process;
    struct iovec here, there;
    ssize_t got;
};

static void read_now(void *argument)
{
    struct reading *reading = argument;

    reading->got = process_vm_readv(reading->process, &reading->here, 1, &reading->there, 1, 0);
}

/* The file may be of a disk that does not answer. */
static ssize_t read_code(pid_t process, uint64_t address, void *to, size_t size)
{
    struct reading reading = { process, { to, size }, { (void *)address, size }, 0 };

    apart(read_now, &reading);
    return reading.got;
}

static void find_in(pid_t process, uint64_t start, uint64_t end, struct code *code)
{
    static uint8_t bytes[PIECE + OVERLAP];

    for (uint64_t at = start; at < end && !(code->call && code->handler_end); at += PIECE) {
        size_t size = end - at < sizeof bytes ? end - at : sizeof bytes;
        struct iovec here = { bytes, size }, there = { (void *)at, size };
        ssize_t got = process_vm_readv(process, &here, 1, &there, 1, 0);
        if (got <= 0)
            return;
        const uint8_t *call = memmem(bytes, got, CALL, sizeof CALL - 1);
        const uint8_t *handler_end = memmem(bytes, got, HANDLER_END, sizeof HANDLER_END - 1);
        if (call && !code->call)
            code->call = at + (call - bytes);
        if (handler_end && !code->handler_end)
            code->handler_end = at + (handler_end - bytes);
    }
}

static bool is_c_library(const char *path)
{
    return strstr(path, "/libc.so.6") || strstr(path, "/libc-2.") || strstr(path, "/ld-musl-");
}

/* Looks into the code of mapped files: of the C library, or of others, as that of a static program. */
static void find_in_files(pid_t process, struct text maps, bool is_library, struct code *code)
{
    uint64_t start, end, bytes = 0;
    char *path;

    for (char *line = maps.bytes; line && *line; line = strchr(line, '\n'), line += line != NULL) {
        char *stop = strchr(line, '\n'), was = stop ? *stop : 0;
        if (stop)
            *stop = 0;
        if (sscanf(line, "%" SCNx64 "-%" SCNx64 " r-xp", &start, &end) == 2 && strstr(line, " r-xp ") && (path = strchr(line, '/'))
            && is_c_library(path) == is_library && (bytes += end - start) <= MOST_BYTES)
            find_in(process, start, end, code);
        if (stop)
            *stop = was;
    }
}

static struct code find_now(pid_t process)
{
    struct text maps = read_text("/proc/%d/maps", process);
    struct code code = { 0 };

    find_in_files(process, maps, true, &code);
    if (!code.call || !code.handler_end)
        find_in_files(process, maps, false, &code);
    return code;
}

/* Does the answer come in time? */
static bool get_answer(int from, struct code *code)
{
    struct timespec since;

    clock_gettime(CLOCK_MONOTONIC, &since);
    while (milliseconds_since(since) < SEARCH_MS) {
        end_if_asked();
        if (poll(&(struct pollfd){ .fd = from, .events = POLLIN }, 1, LOOK_MS) > 0)
            return read(from, code, sizeof *code) == sizeof *code;
    }
    fprintf(stderr, "%s: the code of the process could not be read in %d s: its disk does not answer\n", tracer_name,
            SEARCH_MS / 1000);
    return false;
}

struct code find_code(pid_t process)
{
    struct code code = { 0 };
    int ends[2];
    pid_t searcher = pipe2(ends, O_CLOEXEC) ? -1 : fork();

    if (searcher < 0)
        fail("no process can be started: %s", strerror(errno));
    if (!searcher) {
        prctl(PR_SET_PDEATHSIG, SIGKILL);
        code = find_now(process);
        _exit(write(ends[1], &code, sizeof code) != sizeof code);
    }
    close(ends[1]);
    if (!get_answer(ends[0], &code))
        code = (struct code){ .is_late = true };
    kill(searcher, SIGKILL);
    waitpid(searcher, NULL, code.is_late ? WNOHANG : 0);
    close(ends[0]);
    return code;
}

/* Whether the code is still there, now that the process is stopped. */
bool has_code(pid_t witness, const struct code *code)
{
    uint8_t call[sizeof CALL - 1], handler_end[sizeof HANDLER_END - 1];

    return code->call && code->handler_end && read_code(witness, code->call, call, sizeof call) == sizeof call
        && read_code(witness, code->handler_end, handler_end, sizeof handler_end) == sizeof handler_end
        && !memcmp(call, CALL, sizeof call) && !memcmp(handler_end, HANDLER_END, sizeof handler_end);
}
