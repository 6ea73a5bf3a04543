/* Where an address of the process is, in words: for roots of chains. */
#include "what.h"

/* The number of the thread in whose stack the address is, or NONE: its stack pointer is the nearest below. */
static long thread_of(const struct core *core, const struct segment *s, uint64_t address)
{
    uint64_t nearest = 0;
    long found = NONE;

    for (size_t i = 0; i < core->thread_count; i++) {
        uint64_t at = core->threads[i].words[STACK_POINTER];
        if (at >= s->start && at <= address && at >= nearest)
            nearest = at, found = i;
    }
    return found;
}

/* Writes a line: place ADDRESS, and the symbol or the file, or the thread whose stack has it. Threads count from 1. */
void put_where(struct what *what, uint64_t address)
{
    const struct segment *s = segment_at(&what->core, address);
    long thread = s && s->is_stack ? thread_of(&what->core, s, address) : NONE;

    put_hex("place 0x", address);
    put_text(" ");
    if (module_of(&what->modules, address) != NONE) {
        put_place(what, address);
    } else if (thread != NONE) {
        put_text("stack of thread ");
        put_number(thread + 1);
        put_hex(", 0x", address - what->core.threads[thread].words[STACK_POINTER]);
        put_text(" above its stack pointer");
    } else {
        put_text(s ? "memory of no file" : "memory that the core lacks");
    }
    put_text("\n");
}
