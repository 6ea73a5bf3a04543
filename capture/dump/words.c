/* What /proc and ptrace tell of the words that a process handed to the kernel. Each list may be as long as the process likes, so
 * all ends at a number of words and after some time. */
#define _GNU_SOURCE
#include <dirent.h>
#include <fcntl.h>
#include <inttypes.h>
#include <signal.h>
#include <stdio.h>
#include <stdlib.h>
#include <string.h>
#include <sys/ptrace.h>
#include <unistd.h>

#include "words.h"

enum { MOST_WORDS = 1 << 20, MOST_MS = 2000, NOTE_TYPE = 0x4b524e, HEAD_WORDS = 3, SIGNALS_AT_ONCE = 256 };

/* What lies below the first page is no address (Linux, vm.mmap_min_addr). */
void add_word(struct words *words, struct word word)
{
    if (word.value < PAGE || is_over(words))
        return;
    words->list = grown(words->list, words->count, sizeof *words->list);
    words->list[words->count++] = word;
}

/* Whether no more is read. The first call begins the time. */
bool is_over(struct words *words)
{
    static struct timespec since;

    if (!since.tv_sec)
        clock_gettime(CLOCK_MONOTONIC, &since);
    words->is_cut |= words->count >= MOST_WORDS || milliseconds_since(since) > MOST_MS;
    return words->is_cut;
}

/* proc(5), fdinfo: a line for each descriptor that is watched, `tfd: 5 events: 19 data: 55d0c0ffee00 ..`. */
static void read_epoll(pid_t witness, int descriptor, struct words *words)
{
    char path[64], line[256];
    uint64_t data;

    snprintf(path, sizeof path, "/proc/%d/fdinfo/%d", witness, descriptor);
    FILE *file = fopen(path, "re");
    while (file && !is_over(words) && fgets(line, sizeof line, file))
        if (sscanf(line, "tfd: %*d events: %*x data: %" SCNx64, &data) == 1)
            add_word(words, (struct word){ EPOLL_DATA, descriptor, data, 0 });
    if (file)
        fclose(file);
}

static void read_descriptor(pid_t witness, int folder, const char *name, bool reads_pipes, struct words *words)
{
    char link[64];
    ssize_t size = readlinkat(folder, name, link, sizeof link - 1);

    link[size < 0 ? 0 : size] = 0;
    if (!strcmp(link, "anon_inode:[eventpoll]"))
        read_epoll(witness, atoi(name), words);
    else if (!strcmp(link, "anon_inode:[io_uring]"))
        read_ring(witness, atoi(name), words);
    else if (reads_pipes && !strncmp(link, "pipe:[", strlen("pipe:[")))
        read_pipe(witness, atoi(name), words);
}

static void read_descriptors(pid_t witness, bool reads_pipes, struct words *words)
{
    char path[64];
    struct dirent *entry;

    snprintf(path, sizeof path, "/proc/%d/fd", witness);
    DIR *folder = opendir(path);
    while (folder && !is_over(words) && (entry = readdir(folder)))
        read_descriptor(witness, dirfd(folder), entry->d_name, reads_pipes, words);
    if (folder)
        closedir(folder);
}

/* proc(5), timers: `ID: 0`, then `signal: 10/000055d0c0ffee00`. */
static void read_timers(pid_t witness, struct words *words)
{
    char path[64], line[256];
    uint64_t value;
    int id = 0;

    snprintf(path, sizeof path, "/proc/%d/timers", witness);
    FILE *file = fopen(path, "re");
    while (file && !is_over(words) && fgets(line, sizeof line, file))
        if (sscanf(line, "ID: %d", &id) != 1 && sscanf(line, "signal: %*d/%" SCNx64, &value) == 1)
            add_word(words, (struct word){ TIMER_VALUE, id, value, 0 });
    if (file)
        fclose(file);
}

/* The value that a signal brings, if it is of a kind that brings one (sigaction(2), si_code). */
static void add_value(const siginfo_t *about, pid_t of, struct words *words)
{
    int code = about->si_code;

    if (code == SI_QUEUE || code == SI_TIMER || code == SI_MESGQ || code == SI_ASYNCIO)
        add_word(words, (struct word){ SIGNAL_VALUE, of, (uintptr_t)about->si_value.sival_ptr, 0 });
}

/* The values of the signals that wait for a thread, or for the process that it is of. */
static void read_signals(pid_t thread, bool is_shared, struct words *words)
{
    static siginfo_t found[SIGNALS_AT_ONCE];
    struct __ptrace_peeksiginfo_args ask = { 0, is_shared, SIGNALS_AT_ONCE };
    long count = 1;

    for (; count > 0 && !is_over(words); ask.off += count) {
        count = ptrace(PTRACE_PEEKSIGINFO, thread, &ask, found);
        for (long i = 0; i < count; i++)
            add_value(found + i, is_shared ? 0 : thread, words);
    }
}

/* A signal that a thread was about to take when it stopped waits no more, and is not taken yet. */
static void read_taken(const struct thread *thread, struct words *words)
{
    siginfo_t about = { 0 };

    if (thread->signal && !ptrace(PTRACE_GETSIGINFO, thread->id, NULL, &about))
        add_value(&about, thread->id, words);
}

void read_words(const struct process *process, bool reads_pipes, struct words *words)
{
    read_descriptors(process->witness, reads_pipes, words);
    read_timers(process->witness, words);
    read_signals(process->witness, true, words);
    for (const struct thread *t = process->threads; t < process->threads + process->count; t++) {
        read_signals(t->id, false, words);
        read_taken(t, words);
    }
    if (words->requests)
        fprintf(stderr, "leak_core: %" PRIu64 " requests of io_uring are in flight: the kernel does not tell what they lead to, so a "
                        "block that they alone hold will count as lost\n", words->requests);
}

uint64_t bytes_of_words(const struct words *words)
{
    return (words->count * sizeof(uint64_t) + PAGE - 1) & ~(uint64_t)(PAGE - 1);
}

/* Where no mapping is: above the highest one, with a page between, or else in the highest gap (Linux, TASK_SIZE_MAX). */
void place_words(struct words *words, const struct maps *maps)
{
    uint64_t end = (1ull << 47) - PAGE, bytes = bytes_of_words(words);

    for (size_t i = maps->count; i-- > 0 && !words->at;) {
        const struct mapping *m = maps->list + i;
        if (m->start >= end)
            continue;
        if (m->end < end && end - m->end >= bytes + 2 * PAGE)
            words->at = m->end + PAGE;
        end = m->start;
    }
    if (!words->at)
        words->count = 0;
    if (!words->count)
        words->at = 0;
}

/* The head: where the segment begins, or 0; how many threads were not asked for their signal stack; 1 if a limit was met. Then the
 * words, in the order in which the segment has their values. */
void add_words_note(struct notes *notes, const struct words *words)
{
    size_t size = HEAD_WORDS * sizeof(uint64_t) + words->count * sizeof *words->list;
    uint64_t *note = malloc(size);

    if (!note)
        fail("no memory for the words that the kernel holds");
    note[0] = words->at, note[1] = words->unasked, note[2] = words->is_cut;
    if (words->count)
        memcpy(note + HEAD_WORDS, words->list, words->count * sizeof *words->list);
    add_note(notes, "LEAKFIND", NOTE_TYPE, note, size);
    free(note);
    if (words->is_cut)
        fprintf(stderr, "leak_core: the process handed more words to the kernel than were read (%zu): a block that only others "
                        "lead to will count as lost\n", words->count);
}
