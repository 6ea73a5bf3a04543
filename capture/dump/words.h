/* Words that a process handed to the kernel and may keep no copy of. They become root words of a segment of their own, and a
 * note says of each what it is (docs/FORMAT.md). */
#ifndef LEAK_WORDS_H
#define LEAK_WORDS_H

#include "dump.h"

/* The numbers stand in cores. */
enum word_kind {
    EPOLL_DATA = 1,     /* of a descriptor that is watched: `of` is the epoll's descriptor */
    TIMER_VALUE = 2,    /* of a POSIX timer: `of` is its id */
    SIGNAL_STACK = 3,   /* an alternate signal stack: `of` is its thread */
    RING_BUFFER = 4,    /* a buffer registered with an io_uring: `of` is its descriptor */
    RING_RESULT = 5,    /* user_data of a result for which its queue had no room: `of` is the ring's descriptor */
    SIGNAL_VALUE = 6,   /* of a signal that waits: `of` is the thread, or 0 for the process */
    PIPE_BYTES = 7      /* eight bytes that wait in a pipe: `of` is the descriptor that reads them */
};

struct word {
    uint32_t kind;
    int32_t of;
    uint64_t value;
    uint64_t size;      /* of the memory that begins at the value, or 0 */
};

struct words {
    struct word *list;
    size_t count;
    uint64_t at;        /* where the segment begins, or 0 */
    uint64_t unasked;   /* threads of which it is not known whether they have an alternate signal stack */
    bool is_cut;        /* a limit was met: there are more */
    uint64_t requests;  /* of io_uring, in flight: nobody tells what they lead to */
};

/* words.c */
void add_word(struct words *words, struct word word);
bool is_over(struct words *words);
void read_words(const struct process *process, bool reads_pipes, struct words *words);
uint64_t bytes_of_words(const struct words *words);
void place_words(struct words *words, const struct maps *maps);
void add_words_note(struct notes *notes, const struct words *words);

/* rings.c */
void read_ring(pid_t witness, int descriptor, struct words *words);

/* pipes.c */
void read_pipe(pid_t witness, int descriptor, struct words *words);

/* stacks.c */
struct code;
void ask_signal_stacks(struct process *process, const struct maps *maps, const struct code *found, struct words *words);

#endif
