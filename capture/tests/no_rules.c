/* Stands in for library/frames.c: each frame is left to libgcc's unwinder. */
#include "../library/trace.h"
uint64_t read_rule(uintptr_t address)
{
    (void)address;
    return RULE_KNOWN | RULE_TOO_HARD;
}
