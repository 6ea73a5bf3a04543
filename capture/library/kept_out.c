/* Memory that the program keeps out of cores (MADV_DONTDUMP). A core by the kernel or by gdb lacks it, and what it alone
 * holds would be named: so the table says where it is. A call by libc itself is not seen. */
#define _GNU_SOURCE
#include <sys/mman.h>
#include <sys/syscall.h>
#include <unistd.h>

#include "trace.h"

/* What the library itself asks for. */
int advise(void *start, uint64_t bytes, int advice)
{
    return syscall(SYS_madvise, start, bytes, advice);
}

static void keep_out(uint64_t start, uint64_t bytes)
{
    struct own *places = table.head->kept_out;

    for (int i = 0; i < MOST_KEPT_OUT; i++) {
        uint64_t none = 0;
        if (atomic_compare_exchange_strong((_Atomic uint64_t *)&places[i].bytes, &none, bytes)) {
            places[i].start = start;
            return;
        }
    }
    atomic_fetch_add((_Atomic uint64_t *)&table.head->kept_out_missed, 1);
}

/* Takes the memory out of what is kept out: a place may lose its beginning, its end, both, or its middle. */
static void let_in(uint64_t start, uint64_t end)
{
    for (int i = 0; i < MOST_KEPT_OUT; i++) {
        struct own *place = &table.head->kept_out[i], was = *place;
        uint64_t was_end = was.start + was.bytes;
        if (!was.start || was_end <= start || end <= was.start)
            continue;
        place->start = 0;
        place->bytes = 0;
        if (was.start < start)
            keep_out(was.start, start - was.start);
        if (end < was_end)
            keep_out(end, was_end - end);
    }
}

static void note(void *start, size_t bytes, int is_kept_out)
{
    uint64_t from = (uintptr_t)start, to = from + ((bytes + 4095) & ~4095ull);

    if (!tracing() || table.head->pid != (uint64_t)getpid())
        return;
    if (is_kept_out)
        table.head->keeps_out = 1;
    if (table.head->keeps_out)
        let_in(from, to);
    if (is_kept_out)
        keep_out(from, to - from);
}

PUBLIC int madvise(void *start, size_t bytes, int advice)
{
    int error = advise(start, bytes, advice);

    if (!error && (advice == MADV_DONTDUMP || advice == MADV_DODUMP))
        note(start, bytes, advice == MADV_DONTDUMP);
    return error;
}

PUBLIC int munmap(void *start, size_t bytes)
{
    int error = syscall(SYS_munmap, start, bytes);

    if (!error && tracing() && table.head->keeps_out)
        note(start, bytes, 0);
    return error;
}
