/* Memory whose missing pages the program itself supplies (userfaultfd(2)): who reads such a page waits until it does, and while it is stopped it
 * never does. Nobody knows what such a page would have. The kernel tells which mappings are registered so (proc(5), smaps: `um` and `ui`). */
#include <stdlib.h>
#include <string.h>

#include "dump.h"

/* Each mapping has a line that begins it, as in maps, and in the end one of its flags. */
void find_served(pid_t witness, struct maps *maps)
{
    static const char head[] = "\nVmFlags:";
    struct text text = read_text("/proc/%d/smaps", witness);
    struct mapping *mapping = maps->list, *last = maps->list + maps->count;
    char *at = text.bytes, *flags, *end;

    for (; (flags = strstr(at, head)) && (end = strchr(flags + 1, '\n')); at = end + 1) {
        uint64_t start = strtoull(at, NULL, 16);
        *end = 0;
        while (mapping < last && mapping->start < start)
            mapping++;
        if (mapping < last && mapping->start == start)
            mapping->is_served = strstr(flags, " um") || strstr(flags, " ui");
    }
    free(text.bytes);
}
