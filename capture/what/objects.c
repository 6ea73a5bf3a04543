/* Blocks that have a name of themselves: of Samba's talloc, and objects of Python and GLib by their type. Each must have
 * the size that it says. */
#include "what.h"

enum { NAME_AT = 0x38, SIZE_AT = 0x40, HEAD = 0x60 };   /* talloc 2, struct talloc_chunk */
/* Python 3, PyObject and PyTypeObject: words of both. */
enum { REFERENCES, TYPE, ITEMS, TYPE_NAME, BASIC_SIZE, ITEM_SIZE, TYPE_WORDS };
enum { FLAGS_AT = 168 };                                /* tp_flags */
static const uint64_t of_types = 1u << 31;              /* Py_TPFLAGS_TYPE_SUBCLASS */
enum { MOST_NAME = 200, MOST_SIZE = 1 << 30, MOST_BEFORE = 4 * WORD };

/* The text at an address up to its 0: in memory or, since a core may lack constants, in a file. Gives its length. */
uint64_t name_at(struct what *what, uint64_t address, const uint8_t **bytes)
{
    long module = module_of(&what->modules, address);
    const struct section *section = module == NONE ? NULL : section_at(&what->modules, module, address);
    uint64_t at = section ? address - what->modules.list[module].bias - section->at : 0, size = MOST_NAME, length;

    if (section && section->constants)
        *bytes = (const uint8_t *)section->constants + at, size = section->size - at < size ? section->size - at : size;
    else
        *bytes = run_at(&what->core, address, &size);
    length = *bytes ? text_length(*bytes, size) : 0;
    return *bytes && length < size && !(*bytes)[length] ? length : 0;
}

/* The name of a block of talloc, which says how many bytes were asked for. */
static uint64_t talloc_name(struct what *what, const struct block *block, const uint8_t **bytes)
{
    uint64_t name, size;

    if (block->size < HEAD || !word_at(&what->core, block->start + SIZE_AT, &size) || size > MOST_SIZE
        || !fits_block(HEAD + size, block->size) || !word_at(&what->core, block->start + NAME_AT, &name)
        || library_of(&what->modules, "libtalloc.so") == NONE)
        return 0;
    return name_at(what, name, bytes);
}

static int read_words(struct what *what, uint64_t at, uint64_t *words, uint64_t count)
{
    uint64_t size = count * WORD;
    const uint8_t *bytes = run_at(&what->core, at, &size);

    if (!bytes || size < count * WORD)
        return 0;
    memcpy(words, bytes, size);
    return 1;
}

static int is_type_itself(struct what *what, uint64_t address)
{
    long module = module_of(&what->modules, address);

    return module != NONE && is_exactly(&what->modules, module, address, "PyType_Type");
}

/* Whether the address is that of the type of types, or of a class of types, which has a flag for that. */
static int is_type_of_types(struct what *what, uint64_t address)
{
    uint64_t type, flags;

    return is_type_itself(what, address)
        || (word_at(&what->core, address + FLAGS_AT, &flags) && flags & of_types
            && word_at(&what->core, address + TYPE * WORD, &type) && is_type_itself(what, type));
}

/* Whether an object of this type, before which so many bytes are the collector's, has the block's size. */
static int has_size(const struct block *block, uint64_t before, const uint64_t *type, uint64_t items)
{
    uint64_t count = (int64_t)items < 0 ? -items : items, size = type[BASIC_SIZE], more;

    if (size < 2 * WORD || size > MOST_SIZE || type[ITEM_SIZE] > MOST_SIZE)
        return 0;
    if (__builtin_mul_overflow(count, type[ITEM_SIZE], &more) || more > MOST_SIZE)
        return 0;
    size += more;
    return size < MOST_SIZE && fits_block(before + ((size + WORD - 1) & -(uint64_t)WORD), block->size);
}

/* Whether the object has this type, whose name is in `object`. A `str` has its letters behind it, so its size says
 * nothing, and the name is not told. */
static int has_type(struct what *what, const struct block *block, uint64_t before, const uint64_t *type,
                    uint64_t items, struct object *object)
{
    object->length = name_at(what, type[TYPE_NAME], &object->name);
    if (object->length != strlen("str") || memcmp(object->name, "str", object->length))
        return object->length && has_size(block, before, type, items);
    object->length = 0;
    return 1;
}

/* Whether it is an object of Python, before which the collector and the members may have words. */
static int is_python(struct what *what, const struct block *block, struct object *object)
{
    uint64_t words[MOST_BEFORE / WORD + ITEMS + 1] = { 0 }, type[TYPE_WORDS];
    uint64_t count = block->size / WORD < sizeof words / WORD ? block->size / WORD : sizeof words / WORD;

    if (!read_words(what, block->start, words, count))
        return 0;
    for (uint64_t at = 0; at <= MOST_BEFORE / WORD && at + TYPE < count; at += 2)
        if (words[at + REFERENCES] <= UINT32_MAX && words[at + TYPE] >= PAGE
            && read_words(what, words[at + TYPE], type, TYPE_WORDS) && is_type_of_types(what, type[TYPE])
            && has_type(what, block, at * WORD, type, words[at + ITEMS], object))
            return 1;
    return 0;
}

/* Whether the block says of itself what it is. */
int is_object(struct what *what, const struct block *block, struct object *object)
{
    object->of = "talloc";
    object->length = talloc_name(what, block, &object->name);
    if (object->length)
        return 1;
    object->of = "python";
    if (is_python(what, block, object))
        return 1;
    object->of = "glib";
    return is_gobject(what, block, object);
}
