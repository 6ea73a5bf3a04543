/* Loses blocks, each of a size of its own, whose content says what they are, or doesn't. What leak_what must say of each
 * size, without addresses, is in the lines that begin `what`; of a size without a line nothing.
 *
 * what 24 word +0x8 on_read
 * what 40 word +0x8 on_read
 * what 56 text 19 "a lost \x22text\x22\x09of 19"
 * what 72 text 16 "Grüße für €"
 * what 88 word +0x18 on_done
 * what 104 word +0x8 table+0x10
 * what 120 literal +0x10 "a literal of the program"
 * what 136 holds 2 bytes 304
 * what 136 word +0x10 on_done
 * what 152 holds 1 bytes 152
 * what 152 part
 * what 152 part
 * what 168 holds 1 bytes 168
 * what 168 part
 * what 392 like 2 conns>+0x0
 * what 392 word +0x8 on_read
 * what 408 text 12 "begins so 12"
 * what 424 word +0x8 on_read
 * what 440 word +0x8 on_read
 * what 456 word +0x8 on_read
 * what 472 word +0x8 on_read
 * what 536 word +0x8 on_read
 * what 552 stdio
 * what 552 word +0xd8 _IO_file_jumps
 * what 568 word +0x8 table
 * what 616 word +0x8 on_read
 * what 632 word +0x8 on_read
 * what 632 word +0x20 on_read
 * what 632 word +0x38 on_read
 * what 632 word +0x50 on_read
 * what 648 word +0x8 on_read
 * what 664 word +0x10 on_read
 */
#include <stdio.h>
#include "lose.h"
typedef void handler(void);
struct node {
    struct node *next;
    handler *call;
    long number;
    void *buffer;
    char rest[];
};
enum { BUFFER = 600 };
static long table[8];
static struct node *conns, *texts, *numbers, *thin, *small, *smaller, *others, *stale, *emptied;
static struct node *volatile named[2], *volatile typed[2];
static void *volatile arrays[2], *volatile structures[2], *volatile lettered[2];
static void *buffer;
__attribute__((noinline)) static void on_done(void) { table[0]++; }
__attribute__((noinline)) static void on_read(void) { table[1]++; }

static void *cleared(size_t size) { return calloc(1, size); }
static void *with_bytes(size_t size, const char *bytes, size_t count) { return memcpy(cleared(size), bytes, count); }
static void *with_word(size_t size, size_t at, const void *word)
{
    return memcpy((char *)cleared(size) + at, &word, sizeof word) - at;
}

/* A block as a server's program has many: a link, a function, a number and a buffer. */
static struct node *node(size_t size, struct node *next, long number)
{
    struct node *made = cleared(size);
    made->next = next;
    made->call = on_read;
    made->number = number;
    if (size > sizeof *made)
        made->buffer = buffer;
    return made;
}
static void hold(struct node **list, size_t size)
{
    for (int i = 0; i < 2; i++)
        *list = node(size, *list, 1000 + i);
}
static struct node *number_for_pointer(size_t size)
{
    struct node *made = node(size, NULL, 3);
    made->buffer = (void *)0x1234;
    return made;
}
/* The bytes of its first word are letters. */
static struct node *with_name(size_t size)
{
    struct node *made = node(size, NULL, 3);
    memcpy(made, "letters", 7);
    return made;
}
/* Its second word is the address of a variable, as that of a type in objects of many kinds. */
static struct node *with_type(size_t size)
{
    struct node *made = node(size, NULL, 3);
    made->call = (handler *)table;
    return made;
}
static struct node *text_for_link(size_t size)
{
    struct node *made = node(size, NULL, 3);
    memset(made, 0, sizeof *made);
    memcpy(made, "begins so 12", 12);
    return made;
}
/* Alike in all words, but nothing that tells much. */
static struct node *without_function(size_t size)
{
    struct node *made = node(size, NULL, 3);
    made->call = NULL;
    return made;
}
/* A small number whose bytes are letters, and an address. */
static void *number_like_text(size_t size)
{
    void **made = cleared(size);
    made[0] = (void *)0x31323334, made[1] = buffer;
    return made;
}
/* All of its words that are not null are addresses of blocks. */
static void *pointers(size_t size)
{
    void **made = cleared(size);
    for (int i = 0; i < 4; i++)
        made[i] = buffer;
    return made;
}
/* The same three words again and again: an array of structures. */
static void *structures_of(size_t size)
{
    void **made = cleared(size);
    for (int i = 0; i + 3 <= 30; i += 3)
        made[i] = (void *)1, made[i + 1] = (void *)on_read, made[i + 2] = buffer;
    return made;
}
/* Its first word is neither a number nor an address: left over from an earlier use of the memory. */
static struct node *with_stale_start(size_t size)
{
    struct node *made = node(size, NULL, 3);
    made->next = (struct node *)0x7123456789abcdef;
    return made;
}
/* It begins with letters, and is no text: a text may have been there before. */
static void *with_letters(size_t size)
{
    void **made = cleared(size);
    memcpy(made, "letters.", 8);
    made[1] = (void *)1, made[2] = (void *)on_read, made[3] = buffer;
    return made;
}
/* Half of what held ones have is null here. */
static struct node *half_empty(size_t size)
{
    struct node *made = node(size, NULL, 0);
    made->buffer = NULL;
    return made;
}
static void *chain(size_t first, size_t second)
{
    void *third = cleared(second), *middle = with_word(second, 0, third);
    void **made = with_word(first, 0, middle);
    made[2] = (void *)on_done;
    return made;
}
static void *ring(size_t size)
{
    void **one = cleared(size);
    void **other = with_word(size, 0, one);
    *one = other;
    return one;
}
static void nothing(int status, void *block) { (void)status, (void)block; }

__attribute__((noinline)) static void hold_all(void)
{
    buffer = cleared(BUFFER);
    hold(&conns, 392), hold(&texts, 408), hold(&numbers, 424), hold(&thin, 488), hold(&small, 24), hold(&smaller, 40);
    hold(&others, 520), hold(&stale, 616), hold(&emptied, 648);
    thin->call = thin->next->call = NULL;
    named[0] = with_name(536), named[1] = with_name(536);
    arrays[0] = pointers(584), arrays[1] = pointers(584);
    structures[0] = structures_of(632), structures[1] = structures_of(632);
    lettered[0] = with_letters(664), lettered[1] = with_letters(664);
    typed[0] = with_type(568), typed[1] = with_type(568);
    on_exit(nothing, node(456, NULL, 1));
}
__attribute__((noinline)) static void lose_all(void)
{
    LOSE(with_bytes(56, "a lost \"text\"\tof 19", 20));
    LOSE(with_bytes(72, "Gr\xc3\xbc\xc3\x9f" "e f\xc3\xbcr \xe2\x82\xac", 17));
    LOSE(with_bytes(200, "Gr\xfc\xdf" "e", 6));
    LOSE(with_bytes(216, "\xff\xff\xff\xff\0\0\0\0", 8));
    LOSE(with_bytes(232, "abc", 4));
    LOSE(number_like_text(248));
    LOSE(with_word(88, 0x18, on_done));
    LOSE(with_word(104, 8, table + 2));
    LOSE(with_word(120, 0x10, "a literal of the program"));
    LOSE(with_word(552, 0xd8, *(void **)((char *)stdin + 0xd8)));
    LOSE(chain(136, 152));
    LOSE(ring(168));
    LOSE(node(392, NULL, 7));
    LOSE(text_for_link(408));
    LOSE(with_name(536));
    LOSE(with_type(568));
    LOSE(pointers(584));
    LOSE(structures_of(632));
    LOSE(with_stale_start(616));
    LOSE(half_empty(648));
    LOSE(with_letters(664));
    LOSE(number_for_pointer(424));
    LOSE(node(440, NULL, 7));
    LOSE(node(456, NULL, 7));
    LOSE(node(472, NULL, 7));
    LOSE(without_function(488));
    LOSE(node(24, NULL, 7));
    LOSE(node(40, NULL, 7));
}

int main(void)
{
    struct node *volatile on_stack;

    hold_all();
    on_stack = node(440, NULL, 1);
    lose_all();
    rest();
    return on_stack != NULL;
}
