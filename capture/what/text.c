/* Texts: which block is one, and how texts and names are written, so that nothing in them acts on a terminal. */
#include "what.h"

enum { LEAST_TEXT = 4 };

/* How many bytes the letter has that begins there, or 0 if none does: a letter of ASCII, a tab, an end of a line, or a
 * letter of UTF-8 (RFC 3629) that is no control character. */
static unsigned letter_length(const uint8_t *at, uint64_t left)
{
    static const uint32_t least[] = { 0, 0, 0xa0, 0x800, 0x10000 };
    unsigned size = *at < 0xc2 ? 0 : *at < 0xe0 ? 2 : *at < 0xf0 ? 3 : *at < 0xf5 ? 4 : 0;
    uint32_t letter = *at & (0x7f >> size);

    if (*at < 0x80)
        return (*at >= ' ' && *at < 0x7f) || *at == '\t' || *at == '\n' || *at == '\r';
    if (!size || size > left)
        return 0;
    for (unsigned i = 1; i < size; i++) {
        if ((at[i] & 0xc0) != 0x80)
            return 0;
        letter = letter << 6 | (at[i] & 0x3f);
    }
    return letter >= least[size] && letter <= 0x10ffff && (letter < 0xd800 || letter > 0xdfff) ? size : 0;
}

/* How many of the bytes are whole letters, up to a 0 or another byte. */
uint64_t text_length(const uint8_t *bytes, uint64_t size)
{
    uint64_t length = 0;
    unsigned letter;

    while (length < size && (letter = letter_length(bytes + length, size - length)))
        length += letter;
    return length;
}

/* Whether the block begins with an address of the process: its six bytes may all be letters. */
static int begins_with_address(struct what *what, const uint8_t *bytes)
{
    uint64_t word;

    memcpy(&word, bytes, WORD);
    return segment_at(&what->core, word) || module_of(&what->modules, word) != NONE || is_freed(&what->blocks, word);
}

/* The length of the text that the block begins with, or 0: at least four bytes up to a 0, or to the end of the block.
 * */
uint64_t text_of(struct what *what, const struct block *block, const uint8_t **bytes)
{
    uint64_t size = block->size, length;

    *bytes = run_at(&what->core, block->start, &size);
    length = *bytes ? text_length(*bytes, size) : 0;
    if (length < LEAST_TEXT || (length < size ? (*bytes)[length] != 0 : size < block->size))
        return 0;
    return size >= WORD && begins_with_address(what, *bytes) ? 0 : length;
}

/* Whether a text of this length may as well be a number, since it fits into a word: the block has addresses too. */
int may_be_number(struct what *what, const struct block *block, uint64_t length)
{
    struct reader reader = { &what->core, block->start + WORD, block->start + block->size, NULL, 0 };
    uint64_t place, word;
    long to;

    while (length < WORD && next_word(&reader, &place, &word)) {
        enum kind kind = kind_of(what, word, &to);
        if (kind == BLOCK || kind == IN_FILE)
            return 1;
    }
    return 0;
}

static void put_escaped(uint8_t byte)
{
    static const char digits[] = "0123456789abcdef";
    uint8_t escape[4] = { '\\', 'x', digits[byte >> 4], digits[byte & 15] };

    put_bytes(escape, sizeof escape);
}

/* Writes letters in quotes, at most so many bytes of them, and .. after the quotes if there are more. */
void put_quoted(const uint8_t *bytes, uint64_t size, uint64_t most)
{
    uint64_t at = 0;

    put_text("\"");
    for (unsigned letter; at < size && at < most; at += letter) {
        letter = letter_length(bytes + at, size - at);
        if (bytes[at] < ' ' || bytes[at] == '"' || bytes[at] == '\\' || !letter)
            put_escaped(bytes[at]), letter = 1;
        else
            put_bytes(bytes + at, letter);
    }
    put_text(at < size ? "\".." : "\"");
}

/* Writes a letter of a name, and gives how many bytes it has. */
static unsigned put_letter(const char *at, uint64_t left)
{
    unsigned letter = letter_length((const uint8_t *)at, left);

    if (letter && (uint8_t)*at > ' ' && *at != '\\') {
        put_bytes((const uint8_t *)at, letter);
        return letter;
    }
    put_escaped(*at);
    return 1;
}

/* Writes a name out of a file. */
void put_name(const char *name)
{
    enum { MOST_NAME = 4096 };
    uint64_t size = strnlen(name, MOST_NAME);

    for (uint64_t at = 0; at < size;)
        at += put_letter(name + at, size - at);
}

static int is_of_word(char byte)
{
    return byte == '_' || byte == '*' || byte == '&'
        || ((byte | 32) >= 'a' && (byte | 32) <= 'z');
}

/* Writes the name of a type: its spaces stay before words alone, so that it is no list of callers, nor a line's end. */
void put_type_name(const char *name)
{
    uint64_t size = strlen(name);

    for (uint64_t at = 0; at < size;) {
        if (name[at] != ' ')
            at += put_letter(name + at, size - at);
        else if (is_of_word(name[++at]))
            put_text(" ");
    }
}

/* Writes where an address of a file is: symbol+0x10, or if no symbol has it FILE+0x1234. */
void put_place(struct what *what, uint64_t address)
{
    long number = module_of(&what->modules, address);
    const struct module *module = number == NONE ? NULL : what->modules.list + number;
    const struct symbol *symbol = module ? symbol_at(&what->modules, number, address) : NULL;
    uint64_t offset = module ? address - module->bias - (symbol ? symbol->at : 0) : address;

    if (module)
        put_name(symbol ? module->names + symbol->name : module->name);
    if (module && (offset || !symbol))
        put_text("+");
    if (offset || !symbol)
        put_hex("0x", offset);
}
