/* What a core says of alternate signal stacks (sigaltstack(2)). A program may keep no address of one but in the kernel, so that a block
 * which is one seems to be lost, unless leak_core asked for it. */
#include <elf.h>

#include "common.h"

enum { WORDS_NOTE = 0x4b524e /* by leak_core: dump/words.c */, LEAST_TYPE = 51 /* Linux, AT_MINSIGSTKSZ */,
       LEASTS_IN_A_STACK = 4 /* glibc, sysconf(_SC_SIGSTKSZ) */ };

static uint64_t word_at(const struct note *note, uint64_t number)
{
    uint64_t word = 0;

    if (note->size / sizeof word > number)
        memcpy(&word, note->bytes + number * sizeof word, sizeof word);
    return word;
}

/* The auxiliary vector has pairs of a type and a value. */
static void read_vector(struct signal_stacks *stacks, const struct note *note)
{
    for (uint64_t i = 0; i + 1 < note->size / sizeof i; i += 2)
        if (word_at(note, i) == LEAST_TYPE && word_at(note, i + 1) < UINT32_MAX)
            stacks->usual_size = LEASTS_IN_A_STACK * word_at(note, i + 1);
}

/* Reads a note of a core, whichever it is. */
void read_signal_stacks(struct signal_stacks *stacks, const struct note *note)
{
    if (is_note(note, NT_PRSTATUS, "CORE"))
        stacks->threads++;
    if (is_note(note, NT_AUXV, "CORE"))
        read_vector(stacks, note);
    if (is_note(note, WORDS_NOTE, "LEAKFIND")) {
        stacks->is_asked = 1;
        stacks->words_at = word_at(note, 0);
        stacks->unasked = word_at(note, 1);
    }
}

/* Of how many threads the core does not tell it. */
uint64_t unknown_stacks(const struct signal_stacks *stacks)
{
    return stacks->is_asked ? stacks->unasked : stacks->threads;
}

/* The remark of a log, by which leak_lines marks what may be such a stack: how many may be among the blocks, and which size is the
 * usual one on this processor, or 0. */
void put_stacks_remark(const struct signal_stacks *stacks, uint64_t unknown)
{
    put_text("= leak_log signal stacks ");
    put_number(unknown);
    put_text(" ");
    put_number(stacks->usual_size);
    put_text("\n");
}
