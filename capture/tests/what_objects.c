/* Loses blocks that are made as talloc and Python make them, and some that only look so. What leak_what must say of
 * each is in the lines that begin `what`; of another block nothing. A library that is named as talloc's is linked.
 *
 * what 120 object talloc "struct thing"
 * what 136 object talloc "made for \x22this\x22"
 * what 200 object python "Thing"
 * what 216 object python "collected"
 * what 232 object python "members"
 * what 248 object python "items"
 * what 264 object python "of a class"
 * what 280 object python "by another type of types"
 */
#include <stdint.h>
#include "lose.h"

struct type {
    long references;
    const struct type *type;
    long items;
    const char *name;
    long basic_size, item_size, further[15], flags;
};
struct type PyType_Type = { 1, &PyType_Type, 0, "type", 400, 0, { 0 }, 0 };
static struct type thing = { 1, &PyType_Type, 0, "Thing", 192, 0, { 0 }, 0 };
static struct type collected = { 1, &PyType_Type, 0, "collected", 200 - 8, 0, { 0 }, 0 };
static struct type members = { 1, &PyType_Type, 0, "members", 232 - 8 - 32, 0, { 0 }, 0 };
static struct type items = { 1, &PyType_Type, 0, "items", 24, 8, { 0 }, 0 };
static struct type wraps = { 1, &PyType_Type, 0, "its size wraps", 1024, 8, { 0 }, 0 };
static struct type of_types = { 1, &PyType_Type, 0, "of types", 400, 0, { 0 }, 1L << 31 };
static struct type by_other = { 1, &of_types, 0, "by another type of types", 272, 0, { 0 }, 0 };
static struct type text = { 1, &PyType_Type, 0, "str", 288, 0, { 0 }, 0 };
static struct type no_type = { 1, &thing, 0, "no type", 304, 0, { 0 }, 0 };
static struct type *class;
int is_talloc(void);

/* A block of this size, in which words stand from a place on. */
static void *block(size_t size, size_t at, long first, const void *second, long third)
{
    long *made = calloc(1, size);

    made[at] = first, made[at + 1] = (long)(uintptr_t)second, made[at + 2] = third;
    return made;
}

/* One of talloc: name and size are in its head of 96 bytes. */
static void *of_talloc(size_t size, const char *name, long said)
{
    long *made = calloc(1, size);

    made[7] = (long)(uintptr_t)name, made[8] = said;
    return made;
}

int main(void)
{
    static char made_name[] = "made for \"this\"";

    class = is_talloc() ? calloc(1, sizeof *class) : NULL;
    *class = (struct type){ 1, &PyType_Type, 0, "of a class", 256, 0, { 0 }, 0 };
    LOSE(of_talloc(120, "struct thing", 24));
    LOSE(of_talloc(136, made_name, 30));
    LOSE(of_talloc(152, "too small", 30));
    LOSE(of_talloc(168, "too large", 200));
    LOSE(of_talloc(184, (char *)&thing, 88));
    LOSE(block(200, 0, 1, &thing, 0));
    LOSE(block(216, 2, 3, &collected, 0));
    LOSE(block(232, 4, 1, &members, 0));
    LOSE(block(248, 0, 1, &items, 28));
    LOSE(block(264, 0, 1, class, 0));
    LOSE(block(280, 0, 1, &by_other, 0));
    LOSE(block(296, 0, 1, &text, 0));
    LOSE(block(312, 0, 1, &no_type, 0));
    LOSE(block(328, 0, 1, &thing, 0));
    LOSE(block(344, 0, 1L << 40, &thing, 0));
    LOSE(block(360, 0, 1, &items, 9999));
    LOSE(block(392, 0, 1, &wraps, (1L << 61) - (1024 - 392) / 8));
    LOSE(block(376, 1, 1, &thing, 0));
    rest();
}
