/* What an island will have, and where it will be: nothing is written yet. */
#include <stdio.h>
#include <string.h>

#include "attach.h"

enum { MARGIN = 1 << 20 };

static const uint64_t REACH = 0x7ff00000, FAR = 0x40000000, END_OF_MEMORY = 0x7ffffffff000;

uint8_t island_code[ISLAND_CODE_BYTES];

static uint64_t distance(uint64_t a, uint64_t b)
{
    return a < b ? b - a : a - b;
}

/* Where the island may be between two mappings, or 0. It stays far from where the heap or a stack may grow. */
static uint64_t place_between(const struct mapping *before, const struct mapping *after, uint64_t near, uint64_t bytes)
{
    uint64_t start = before ? before->end : MARGIN;
    uint64_t end = after && after->start < END_OF_MEMORY ? after->start : END_OF_MEMORY;
    uint64_t below = before && !strcmp(before->path, "[heap]") ? FAR : MARGIN, above = after && !strncmp(after->path, "[stack", 6) ? FAR : MARGIN;

    if (start > end || end - start < bytes + below + above + PAGE)
        return 0;
    uint64_t low = start + below, high = (end - bytes - above) & -(uint64_t)PAGE;
    return near < low ? low : near > high ? high : near & -(uint64_t)PAGE;
}

/* The nearest free place, from which a jump of 32 bits leads to all of libc and back. */
static uint64_t find_place(const struct target *target, uint64_t near, uint64_t bytes)
{
    const struct maps *maps = &target->maps;
    uint64_t best = 0;

    for (size_t i = 0; i <= maps->count; i++) {
        uint64_t at = place_between(i ? maps->list + i - 1 : NULL, i < maps->count ? maps->list + i : NULL, near, bytes);
        if (at && distance(at, near) < REACH && (!best || distance(at, near) < distance(best, near)))
            best = at;
    }
    if (!best)
        fail("process %d has no free memory within 2 GiB of its malloc", target->process.id);
    return best;
}

/* Moves the first instructions of a function to the end of the code, unless another name of it was moved already. */
static void plan_function(struct target *target, int k, size_t *used)
{
    struct island *island = &target->island;
    const struct entry *entry = target->entries + k;

    island->function[k] = entry->at;
    for (int j = 0; j < k && entry->at; j++)
        if (island->function[j] == entry->at)
            island->was[k] = island->was[j];
    if (!entry->at || island->was[k])
        return;
    uint64_t to = target->base + ISLAND_CODE + *used;
    struct moved moved = move_code(entry->code, entry->at, entry->size, to);
    if (!moved.taken || *used + moved.bytes > (size_t)ISLAND_CODE_BYTES)
        fail("the first instructions of %s can't be moved as far as there is memory", function_names[k]);
    memcpy(island_code + *used, moved.code, moved.bytes);
    memcpy(island->saved[k], entry->code, SAVED_BYTES);
    island->saved_bytes[k] = moved.taken;
    island->was[k] = to;
    *used += (moved.bytes + 15) & ~(size_t)15;
}

/* The jump of a function leads to its stub: jmp *target(%rip). */
static void plan_stub(int k)
{
    uint8_t *stub = island_code + ISLAND_STUBS - ISLAND_CODE + STUB_BYTES * k;
    int32_t far = (int)offsetof(struct island, target) + 8 * k - (ISLAND_STUBS + STUB_BYTES * k + 6);

    memcpy(stub, "\xff\x25", 2);
    memcpy(stub + 2, &far, sizeof far);
}

/* The address of a function of libc that loading can't do without. */
uint64_t needed(const struct target *target, const char *name)
{
    uint64_t size, at = find_symbol(&target->libc, name, &size);

    if (!at)
        fail("process %d: its libc has no %s: it is older than glibc 2.34", target->process.id, name);
    return at;
}

static void plan_calls(struct target *target)
{
    struct island *island = &target->island;
    uint64_t size = 0;
    const struct module *const out[] = { &target->libc, &target->loader };

    island->dlopen = (void *)needed(target, "dlopen");
    island->dlsym = (void *)needed(target, "dlsym");
    island->dlerror = (void *)needed(target, "dlerror");
    island->errno_location = (void *)needed(target, "__errno_location");
    island->set_mask = (void *)needed(target, "pthread_sigmask");
    island->set_cancel = (void *)needed(target, "pthread_setcancelstate");
    island->handler_end = target->code.handler_end;
    island->iterating[0] = find_symbol(&target->libc, "dl_iterate_phdr", &size);
    island->iterating[1] = island->iterating[0] + size;
    for (int k = 0; k < 2; k++)
        island->excluded[k][0] = out[k]->code.start, island->excluded[k][1] = out[k]->code.end;
    island->excluded[2][0] = target->base, island->excluded[2][1] = island->stack_end;
    strcpy(island->path, "/proc/self/fd/./");
    strcpy(island->symbol, "leak_attach_start");
}

/* All that will be written, so that what can't be is refused before anything is. */
void plan_island(struct target *target)
{
    struct island *island = &target->island;
    size_t library = attached_library_end - attached_library, room = (library + PAGE - 1) & -(size_t)PAGE, gate = __stop_gate - __start_gate;
    size_t used = ISLAND_MOVED - ISLAND_CODE, bytes = ISLAND_LIBRARY + room + ISLAND_STACK_BYTES;

    target->base = find_place(target, needed(target, "malloc"), bytes);
    *island = (struct island){ .magic = ISLAND_MAGIC, .build = build_of_this(), .library_bytes = library, .library_room = room,
                               .stack_end = target->base + bytes, .stack_top = target->base + bytes - 64 };
    if (gate > ISLAND_STUBS - ISLAND_CODE || !target->code.call || !target->code.handler_end)
        fail("process %d: no code was found by which its threads could be called", target->process.id);
    memcpy(island_code, __start_gate, gate);
    for (int k = 0; k < FUNCTIONS; k++) {
        plan_function(target, k, &used);
        plan_stub(k);
    }
    plan_calls(target);
}
