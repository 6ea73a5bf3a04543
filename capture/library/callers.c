/* Who asked for a block: one caller, or with a depth above 1 the stack from it on. */
#define _GNU_SOURCE
#include <dlfcn.h>
#include <string.h>
#include <unwind.h>

#include "../attach/island.h"
#include "trace.h"

__thread struct caller caller_of_new;
static __thread int walking;

struct walk {
    uintptr_t callers[MAX_DEPTH];
    size_t depth, wanted;
};

/* A frame that the unwinder found. From the caller on, which is in the walk already, each is kept. */
static _Unwind_Reason_Code take_frame(struct _Unwind_Context *context, void *into)
{
    struct walk *walk = into;
    uintptr_t address = _Unwind_GetIP(context);

    if (walk->depth || address == walk->callers[0])
        walk->callers[walk->depth++] = address;
    return walk->depth < walk->wanted ? _URC_NO_REASON : _URC_NORMAL_STOP;
}

/* The rule of a frame, remembered from an earlier walk if it can be. */
static uint64_t rule_of(uintptr_t address)
{
    struct rule_cell *cell = &finder->rules[(address * 0x9E3779B97F4A7C15ull) >> 52];
    uint64_t rule = get(&cell->rule);

    if ((get(&cell->key) ^ rule) == address && rule)
        return rule;
    rule = read_rule(address);
    put(&cell->rule, rule);
    put(&cell->key, address ^ rule);
    return rule;
}

/* Takes the stack from the caller on. It reads no word but those which the unwind tables name. */
static void take_stack(struct walk *walk, struct caller caller)
{
    walk->callers[walk->depth++] = caller.address;
    while (walk->depth < walk->wanted) {
        uint64_t rule = rule_of(caller.address);
        if (rule & RULE_LAST_FRAME)
            return;
        if (rule & RULE_TOO_HARD) {
            walk->depth = 0;
            _Unwind_Backtrace(take_frame, walk);
            if (!walk->depth)
                walk->depth = 1;
            return;
        }
        uintptr_t above = (rule & RULE_FROM_RBP ? caller.rbp : caller.stack) + (rule >> RULE_UP_SHIFT & RULE_MASK);
        if (above <= caller.stack || above % 8)
            return;
        if (rule & RULE_SAVES_RBP)
            caller.rbp = *(uintptr_t *)(above - (rule >> RULE_RBP_SHIFT));
        caller.address = ((uintptr_t *)above)[-1];
        caller.stack = above;
        if (!caller.address)
            return;
        walk->callers[walk->depth++] = caller.address;
    }
}

/* Another library may be mapped where one was. */
void forget_rules(void)
{
    for (int k = 0; tracing() && k < RULES; k++)
        put(&finder->rules[k].rule, 0);
}

/* Puts a new block into the table, and hands it on. The stamp is taken when the block is there already.
 * What operator new asks for is put down to the caller of operator new. */
void *record(void *block, size_t size, struct caller caller)
{
    struct walk walk;

    if (UNLIKELY(caller_of_new.address)) {
        caller = caller_of_new;
        caller_of_new = (struct caller){ 0 };   /* its rbp may be a block's address, and hold it */
    }
    if (UNLIKELY(!tracing()) || !block)
        return block;
    walk.callers[0] = caller.address;
    walk.depth = 0;
    walk.wanted = table.words - ENTRY_CALLERS;
    if (walk.wanted > 1 && !walking) {
        walking = 1;
        take_stack(&walk, caller);
        walking = 0;
    } else
        walk.depth = 1;
    insert((uintptr_t)block, size, __builtin_ia32_rdtsc(), walk.callers, walk.depth);
    return block;
}

static int (*real_dlclose)(void *handle);

/* A library that is unloaded takes its unwind tables along. */
PUBLIC int dlclose(void *handle)
{
    if (!real_dlclose)
        real_dlclose = (int (*)(void *))dlsym(RTLD_NEXT, "dlclose");
    int error = real_dlclose(handle);
    ENTER();
    forget_rules();
    LEAVE();
    return error;
}

#ifdef ATTACHED
__thread int inside;

void take_dlclose(struct island *island)
{
    real_dlclose = (int (*)(void *))island->was[FUNCTION_dlclose];
    island->hooks[FUNCTION_dlclose] = (uintptr_t)dlclose;
}
#endif
