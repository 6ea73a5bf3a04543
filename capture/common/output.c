/* Standard output, by a buffer of its own: printf would take half of the time of a whole log. */
#include <errno.h>
#include <string.h>
#include <unistd.h>

#include "common.h"

enum { ROOM = 1 << 20, LONGEST = 24 }; /* LONGEST: more than the digits of a number */

static char room[ROOM];
static size_t used;

static void write_all(const char *bytes, size_t size)
{
    while (size) {
        ssize_t written = write(STDOUT_FILENO, bytes, size);
        if (written < 0 && errno == EINTR)
            continue;
        if (written <= 0)
            fail("standard output: %s", strerror(errno));
        bytes += written;
        size -= written;
    }
}

static void make_room(size_t size)
{
    if (size <= ROOM - used)
        return;
    write_all(room, used);
    used = 0;
}

void put_bytes(const uint8_t *bytes, uint64_t size)
{
    make_room(size);
    if (size > ROOM) {
        write_all((const char *)bytes, size);
        return;
    }
    memcpy(room + used, bytes, size);
    used += size;
}

void put_number(uint64_t value)
{
    char digits[LONGEST];
    int at = LONGEST;

    do
        digits[--at] = '0' + value % 10;
    while (value /= 10);
    put_bytes((const uint8_t *)digits + at, LONGEST - at);
}

void put_hex_behind(const char *before, size_t length, uint64_t value)
{
    int digits = value ? (67 - __builtin_clzll(value)) / 4 : 1; /* each tells four of the 64 - clz bits */

    make_room(length + LONGEST);
    memcpy(room + used, before, length);
    used += length + digits;
    for (char *at = room + used; digits--; value >>= 4)
        *--at = "0123456789abcdef"[value & 15];
}

/* Ends the output: what is left goes out, and an error that only comes at the end is one. */
void put_end(void)
{
    make_room(ROOM + 1);
    if (close(STDOUT_FILENO))
        fail("standard output: %s", strerror(errno));
}
