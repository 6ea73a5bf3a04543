/* What /proc tells of an io_uring (Linux, io_uring/fdinfo.c). The rings themselves are memory that the core has. */
#define _GNU_SOURCE
#include <inttypes.h>
#include <stdio.h>
#include <string.h>

#include "words.h"

/* Of the lines that follow `UserBufs:`, `    0: 0x7f0012345000/4096`; of those that follow `CqOverflowList:`, which are results for
 * which the ring had no room, `  user_data=140000, res=0, flags=0`. Gives how many results the line has. */
static int read_entry(const char *line, int descriptor, struct words *words)
{
    uint64_t value, size;

    if (sscanf(line, " %*u: 0x%" SCNx64 "/%" SCNu64, &value, &size) == 2)
        add_word(words, (struct word){ RING_BUFFER, descriptor, value, size });
    else if (sscanf(line, " user_data=%" SCNu64, &value) == 1) {
        add_word(words, (struct word){ RING_RESULT, descriptor, value, 0 });
        return 1;
    }
    return 0;
}

/* Each request that was taken and has no result yet is in flight. One may have several results, so there may be more. */
void read_ring(pid_t witness, int descriptor, struct words *words)
{
    char path[64], line[256];
    uint32_t taken = 0, in_ring = 0, beside = 0;

    snprintf(path, sizeof path, "/proc/%d/fdinfo/%d", witness, descriptor);
    FILE *file = fopen(path, "re");
    while (file && !is_over(words) && fgets(line, sizeof line, file))
        if (sscanf(line, "SqHead: %" SCNu32, &taken) != 1 && sscanf(line, "CqTail: %" SCNu32, &in_ring) != 1)
            beside += read_entry(line, descriptor, words);
    if (file)
        fclose(file);
    if ((int32_t)(taken - in_ring - beside) > 0)
        words->requests += taken - in_ring - beside;
}
