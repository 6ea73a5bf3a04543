/* Loses blocks that are made as GLib makes its objects, and some that only look so. Libraries that are named as GLib's
 * are linked; one has the table of names. What leak_what must say of each is in the lines that begin `what`; of another
 * block nothing. With a word it has a second table, and then nothing of any.
 *
 * what 120 object glib "GThing"
 * what 136 object glib "GWithPrivateData"
 */
#include <stdint.h>
#include <string.h>
#include "lose.h"

enum { NAMES = 2048, FIRST = 7, FURTHER = 700, BEYOND = NAMES + 2 };     /* the first word of the next block */

void set_names(void **first, void **second);
int is_gobject(void);

struct data {
    void *value_table;
    char rest[48];
    void *class;
    uint16_t size, private_size, preallocated;
    void *init;
};

struct type {
    void *plugin;
    long children, more;
    struct data *data;
    unsigned name;
    void *further[3];
    struct type *self;
};

static void **names;
void **beyond;
static const char *const words[] = { "GThing", "GWithPrivateData", "GOther", "GNotItself", "GOfAnother", "GTooSmall" };

/* A type whose objects have this size, with private data before them. Gives its class. */
static void **class_of(int number, int size, int private_size)
{
    struct type *type = calloc(1, sizeof *type);

    type->data = calloc(1, sizeof *type->data);
    type->data->class = calloc(1, 200);
    type->data->size = size, type->data->private_size = private_size;
    type->name = FURTHER + number, type->self = type;
    names[FURTHER + number] = (void *)words[number];
    *(void **)type->data->class = type;
    return type->data->class;
}

/* A block of this size with an object of the class, before which there are so many bytes. */
static void *object(int size, void **class, int before)
{
    char *made = calloc(1, size);

    memcpy(made + before, &class, sizeof class);
    return made;
}

/* A table of names, and behind it a block that begins with another one. */
static void **table(void)
{
    void **made = calloc(NAMES, sizeof *made);

    made[FIRST] = "-g-type-private--GTypeFlags";
    beyond = calloc(3, sizeof *beyond);
    *beyond = "GBeyond";
    return made;
}

int main(int count, char **arguments)
{
    static void **things, **with_data, **others, **not_itself, **of_another, **too_small, **unnamed;

    (void)arguments;
    set_names(names = table(), count > 1 ? table() : NULL);
    things = class_of(0, 120, 0), with_data = class_of(1, 104, 32), others = class_of(2, 152, 0);
    not_itself = class_of(3, 184, 0), of_another = class_of(4, 200, 0), too_small = class_of(5, 80, 0);
    unnamed = class_of(0, 248, 0);
    ((struct type *)*not_itself)->self = is_gobject() ? *things : NULL;
    ((struct type *)*of_another)->data->class = things;
    ((struct type *)*unnamed)->name = BEYOND;
    LOSE(object(120, things, 0));
    LOSE(object(136, with_data, 32));
    LOSE(object(152, with_data, 0));
    LOSE(object(168, others, 16));
    LOSE(object(184, not_itself, 0));
    LOSE(object(200, of_another, 0));
    LOSE(object(216, too_small, 0));
    LOSE(object(232, things + 1, 0));
    LOSE(object(248, unnamed, 0));
    rest();
}
