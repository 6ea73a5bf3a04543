/* Whether a heap is right. Nothing else can check a log of it, so whatever does not fit refuses it, where no thread is at work in the allocator;
 * where some are, a few for each. */
#include <stdlib.h>

#include "heaps.h"

static void keep(struct other_heap *heap, const char *form, va_list values)
{
    vsnprintf(heap->why, sizeof heap->why, form, values);
}

/* It is there, and not as it is known. */
enum finding refuse(struct other_heap *heap, const char *form, ...)
{
    va_list list;

    va_start(list, form);
    keep(heap, form, list);
    va_end(list);
    return NOT_RIGHT;
}

/* One more thing that does not fit, unless a thread was just changing it. The first is kept, to be told. */
void tell_odd(struct other_heap *heap, const char *form, ...)
{
    va_list list;

    if (heap->odd++)
        return;
    va_start(list, form);
    keep(heap, form, list);
    va_end(list);
}

/* Right, if as many things are odd as that many threads may have been changing: `each` for each, and `more` for the one that has a lock. */
enum finding judge(struct other_heap *heap, uint64_t each, uint64_t more)
{
    if (!heap->steps_left)
        return refuse(heap, "more places to look at than the core can have");
    if (!heap->odd || (heap->inside && heap->odd <= each * heap->inside + more))
        return WALKED;
    return NOT_RIGHT;
}
