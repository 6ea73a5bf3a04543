/* Which kind of word it is: what tells blocks of one program's type from those of another. */
#include "what.h"

enum { LEAST_ADDRESS = 4096, LEAST_TEXT = 4, ADDRESS_BITS = 47 };

static int is_letter(uint8_t byte)
{
    return (byte >= ' ' && byte < 127) || byte == '\t' || byte == '\n' || byte == '\r';
}

/* A word that begins with letters, at least four, and has zeros after them. */
static int is_text(uint64_t word)
{
    int count = 0;

    for (; count < WORD && is_letter(word & 255); count++)
        word >>= 8;
    return count >= LEAST_TEXT && !word;
}

/* The kind of an address, and in `to` the number of the block or of the file that it leads to; OTHER if it is none. */
static enum kind kind_of_address(struct what *what, uint64_t word, long *to)
{
    const struct segment *s;

    *to = block_of(&what->blocks, word);
    if (*to != NONE)
        return BLOCK;
    *to = module_of(&what->modules, word);
    if (*to != NONE)
        return IN_FILE;
    s = segment_at(&what->core, word);
    if (s && s->is_stack)
        return STACK;
    if (word >> 32 && word >= what->blocks.low && word < what->blocks.high && is_freed(&what->blocks, word))
        return FREED;
    return OTHER;
}

enum kind kind_of(struct what *what, uint64_t word, long *to)
{
    enum kind found = OTHER;

    *to = NONE;
    if (!word)
        return NULL_WORD;
    if (word >= LEAST_ADDRESS && !(word >> ADDRESS_BITS))
        found = kind_of_address(what, word, to);
    if (found != OTHER)
        return found;
    if (is_text(word))
        return TEXT;
    return word >> 32 == 0 || word > ~(uint64_t)0xffff ? SMALL : OTHER;
}

/* What of an address in a file tells blocks apart: its symbol, or if it has none its section; of code the address
 * itself. */
static uint32_t code_of_place(struct what *what, uint64_t word, long module)
{
    const struct symbol *symbol = symbol_at(&what->modules, module, word);
    const struct section *section = section_at(&what->modules, module, word);
    uint32_t flags = NAMED | (section && section->is_code ? OF_CODE : 0);
    uint32_t number = symbol ? symbol - what->modules.list[module].symbols : 0;

    if (symbol)
        return ((number * 31 + (uint32_t)module * 1000003) & (OF_CODE - 1)) | flags;
    if (section && section->is_code)
        return ((uint32_t)(word * 2654435761u) & (OF_CODE - 1)) | flags;
    return section ? (uint32_t)(section - what->modules.list[module].sections + module * 64) & (NAMED - 1) : 1;
}

/* The word in 32 bits: its kind, and of a number its low bits, of an address the size of its block, or its symbol. */
uint32_t code_of(struct what *what, uint64_t word)
{
    long to;
    enum kind kind = kind_of(what, word, &to);
    uint32_t detail = 0;

    if (kind == BLOCK) {
        const struct block *block = what->blocks.list + to;
        detail = (block->size < NAMED - 1 ? block->size : NAMED - 1) | (word != block->start ? NAMED : 0);
    } else if (kind == IN_FILE) {
        detail = code_of_place(what, word, to);
    } else if (kind == SMALL) {
        detail = word & 0xffffff;
    }
    return (uint32_t)kind << KIND_AT | detail;
}
