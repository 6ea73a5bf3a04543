/* What is said of a block, a line for each fact. docs/FORMAT.md has their form. */
#include "what.h"

enum { MOST_TEXT = 60, MOST_NAMED = 4, MOST_LOOKED_AT = 4096, LEAST_LITERAL = 4, LOW = 32 };

/* Where glibc keeps the table of functions of a FILE (libio/libioP.h, struct _IO_FILE_plus), and how large one is at
 * least. */
enum { JUMPS_AT = 0xd8, LEAST_FILE = JUMPS_AT + WORD };

static void begin_fact(const char *word, const struct block *block)
{
    put_text(word);
    put_hex(" 0x", block->start);
}

static void put_text_fact(const struct block *block, const uint8_t *bytes, uint64_t length)
{
    begin_fact("text", block);
    put_text(" ");
    put_number(length);
    put_text(" ");
    put_quoted(bytes, length, MOST_TEXT);
    put_text("\n");
}

static int is_stdio(struct what *what, const struct block *block)
{
    uint64_t word;
    long module;

    if (block->size < LEAST_FILE || !word_at(&what->core, block->start + JUMPS_AT, &word))
        return 0;
    module = module_of(&what->modules, word);
    return module != NONE && what->modules.list[module].is_libc
        && is_exactly(&what->modules, module, word, "_IO_file_jumps");
}

/* The length of the text of a string literal that begins at the address, or 0. */
static uint64_t literal_at(struct what *what, long module, uint64_t address, const uint8_t **bytes)
{
    const struct section *section = section_at(&what->modules, module, address);
    uint64_t at = section ? address - what->modules.list[module].bias - section->at : 0, length;

    if (!section || !section->constants || (at && section->constants[at - 1]))
        return 0;
    *bytes = (const uint8_t *)section->constants + at;
    length = text_length(*bytes, section->size - at);
    return length >= LEAST_LITERAL && !(*bytes)[length] ? length : 0;
}

/* Whether an object of C++ can have this word: it leads behind the two words that begin each part of a class's table, of
 * which the second is the same in all, and the first, in all but the first, is below 0 (Itanium C++ ABI, 2.5.2). */
static int may_be_vtable(struct what *what, uint64_t word, uint64_t table)
{
    uint64_t type, same, top;

    if (word == table + 2 * WORD)
        return 1;
    return word > table + 2 * WORD && word % WORD == 0 && word_at(&what->core, table + WORD, &type) && type
        && word_at(&what->core, word - WORD, &same) && same == type && word_at(&what->core, word - 2 * WORD, &top)
        && (int64_t)top < 0;
}

/* Whether a word into a file tells something: it has a symbol or a text there. Of an address that may as well be a
 * small number, since the program isn't position independent, a symbol must begin there. */
static int tells(struct what *what, uint64_t word, long module)
{
    const struct symbol *symbol = symbol_at(&what->modules, module, word);
    const struct module *in = what->modules.list + module;
    const uint8_t *bytes;

    if (symbol && !strncmp(in->names + symbol->name, "_ZTV", 4) && !may_be_vtable(what, word, in->bias + symbol->at))
        return 0;
    if (!(word >> LOW))
        return symbol && symbol->at == word - what->modules.list[module].bias;
    return symbol || literal_at(what, module, word, &bytes);
}

static void put_named(struct what *what, const struct block *block, uint64_t place, uint64_t word)
{
    long module = module_of(&what->modules, word);
    const uint8_t *bytes;
    uint64_t length = symbol_at(&what->modules, module, word) ? 0 : literal_at(what, module, word, &bytes);

    begin_fact(length ? "literal" : "word", block);
    put_hex(" +0x", place - block->start);
    put_text(" ");
    if (length)
        put_quoted(bytes, length, MOST_TEXT);
    else
        put_place(what, word);
    put_text("\n");
}

/* The block's words into files: of libc, which tell least, after the others. */
static void put_words(struct what *what, const struct block *block, int of_libc, int *left)
{
    uint64_t size = block->size < MOST_LOOKED_AT ? block->size : MOST_LOOKED_AT, place, word;
    struct reader reader = { &what->core, block->start, block->start + (size & -(uint64_t)WORD), NULL, 0 };

    while (*left && next_word(&reader, &place, &word)) {
        long module = word ? module_of(&what->modules, word) : NONE;
        if (module == NONE || what->modules.list[module].is_libc != of_libc || !tells(what, word, module))
            continue;
        put_named(what, block, place, word);
        --*left;
    }
}

/* How a held block is reached: the variable, and where in each block the pointer to the next one is. */
static void put_role(struct what *what, const struct roles *roles, int32_t number)
{
    const struct role *role = roles->list + number;

    if (role->parent != NONE)
        put_role(what, roles, role->parent);
    else if (role->place)
        put_place(what, role->place);
    if (role->parent == NONE)
        return;
    if (role->offset >= 0)
        put_hex(">+0x", role->offset);
    else
        put_text(role->offset == ELEMENT ? ">[]" : ">..");
}

static void put_likeness(struct what *what, struct sources *sources, long number)
{
    const struct block *block = what->blocks.list + number;
    struct likeness found = like_of(what, sources->classes, number);
    const char *type;
    uint64_t length;

    if (found.block == NONE)
        return;
    begin_fact("like", block);
    put_hex(" 0x", what->blocks.list[found.block].start);
    put_text(" ");
    put_number(found.count);
    put_text(" ");
    put_role(what, &sources->roles, found.role);
    put_text("\n");
    type = type_of_block(&what->blocks, found.block, &length);
    if (!type)
        return;
    begin_fact("type", block);
    put_text(" ");
    put_bytes((const uint8_t *)type, length);
    put_text("\n");
}

/* Gives whether the block is an object, whose likeness would tell less. */
static int put_object(struct what *what, const struct block *block)
{
    struct object object;

    if (!is_object(what, block, &object))
        return 0;
    if (!object.length)
        return 1;
    begin_fact("object", block);
    put_text(" ");
    put_text(object.of);
    put_text(" ");
    put_quoted(object.name, object.length, MOST_TEXT);
    put_text("\n");
    return 1;
}

/* Which container of C++ the block is of, and in which lost block and where that is. */
static void put_container(struct what *what, const struct containers *containers, long number)
{
    static const char *const words[] = { "tree", "hash", "buckets", "string" };
    uint32_t of = containers->of_block[number];
    const struct container *found = containers->list + of;

    if (!of || of == DOUBTFUL)
        return;
    begin_fact("container", what->blocks.list + number);
    put_text(" ");
    put_text(words[found->kind]);
    put_text(" ");
    put_number(found->count);
    put_hex(" 0x", what->blocks.list[found->owner].start);
    put_hex(" +0x", found->offset);
    put_text("\n");
}

/* The first of those that lead to a place, or to one after it. */
static size_t first_leading(const struct structures *s, long place)
{
    size_t low = 0, high = s->leading_count;

    while (low < high) {
        size_t middle = low + (high - low) / 2;
        if (s->leading[middle].to < place)
            low = middle + 1;
        else
            high = middle;
    }
    return low;
}

static void put_structure(struct what *what, const struct structures *s, long place)
{
    const struct block *block = what->blocks.list + s->lost[place];

    if (s->held[place]) {
        begin_fact("holds", block);
        put_text(" ");
        put_number(s->held[place]);
        put_text(" bytes ");
        put_number(s->held_bytes[place]);
        put_text("\n");
    }
    if (s->top[place] != place) {
        begin_fact("part", block);
        put_hex(" 0x", what->blocks.list[s->lost[s->top[place]]].start);
        put_text("\n");
    }
    for (size_t i = first_leading(s, place); i < s->leading_count && s->leading[i].to == place; i++) {
        begin_fact("led", block);
        put_hex(" 0x", what->blocks.list[s->lost[s->leading[i].from]].start);
        put_text("\n");
    }
}

/* Writes what is known of the block with this number; a lost one has a place among those that are lost, a held one has
 * none. */
void put_facts(struct what *what, struct sources *sources, long number, long place)
{
    const struct block *block = what->blocks.list + number;
    const uint8_t *bytes;
    uint64_t length = text_of(what, block, &bytes);
    int left = MOST_NAMED;

    length = may_be_number(what, block, length) ? 0 : length;
    if (length)
        put_text_fact(block, bytes, length);
    else if (is_stdio(what, block))
        begin_fact("stdio", block), put_text("\n");
    else if (!put_object(what, block) && place != NONE)
        put_likeness(what, sources, number);
    if (!length) {
        put_words(what, block, 0, &left);
        put_words(what, block, 1, &left);
    }
    if (place == NONE)
        return;
    put_container(what, &sources->containers, number);
    put_structure(what, &sources->structures, place);
}
