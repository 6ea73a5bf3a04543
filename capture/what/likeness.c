/* Which held block a lost one looks like. */
#include "classes.h"

enum { LEAST_STRONG = 3, OF_FUNCTION = 3, CONTRADICTION = -150, LAST_WEIGHT = 30, WHOLE_WEIGHT = 100 };
enum { MOST_DIFFERING = 2 };    /* one word in so many may be of another kind */
static const uint64_t most_compared = (uint64_t)1 << 27; /* so that the time is bounded */

struct fit {
    int64_t score;              /* in hundredths */
    int strong, against;
    int some, differing;        /* words that are not null in both, and those of them that are of two kinds */
};

/* What two words of one kind say for likeness, in hundredths. */
static int of_one_kind(enum kind kind, uint32_t a, uint32_t b, struct fit *fit)
{
    static const int plain[] = { [NULL_WORD] = 30, [FREED] = 100, [STACK] = 100, [TEXT] = 50, [OTHER] = 30 };
    int is_same = a == b, is_named = (a & NAMED) != 0, is_other_named = (b & NAMED) != 0;

    if (kind == SMALL)
        return is_same ? 100 : 50;
    if (kind == BLOCK) {
        fit->strong += is_same;
        return is_same ? 300 : is_named == is_other_named ? 70 : 0;
    }
    if (kind != IN_FILE)
        return plain[kind];
    if (!is_same)
        return is_named || is_other_named ? CONTRADICTION : 0;
    fit->strong += a & OF_CODE ? OF_FUNCTION : 0; /* a variable may be the type of any object of a kind */
    return is_named ? 800 : 200;
}

/* What two words of different kinds say, in hundredths: a pointer may be null, and what was freed may have been a
 * block; but a number is no pointer. From CONTRADICTION on down the blocks are not alike. */
static int of_two_kinds(enum kind a, enum kind b)
{
    static const int table[OTHER + 1][OTHER + 1] = {
        [NULL_WORD] = { [SMALL] = -20, [BLOCK] = -30, [FREED] = -30, [IN_FILE] = -70, [STACK] = -30, [TEXT] = -80,
                        [OTHER] = -30 },
        [SMALL] = { [BLOCK] = -300, [FREED] = -200, [IN_FILE] = -300, [STACK] = -40, [TEXT] = -70, [OTHER] = -40 },
        [BLOCK] = { [FREED] = 70, [IN_FILE] = -150, [STACK] = -100, [TEXT] = -300, [OTHER] = -250 },
        [FREED] = { [IN_FILE] = -150, [STACK] = -150, [TEXT] = -200, [OTHER] = -150 },
        [IN_FILE] = { [STACK] = -250, [TEXT] = -300, [OTHER] = -250 },
        [STACK] = { [TEXT] = -50, [OTHER] = -50 },
        [TEXT] = { [OTHER] = -50 },
    };

    return a < b ? table[a][b] : table[b][a];
}

/* Compares the words of two blocks of one size. */
static struct fit compare(const uint32_t *a, const uint32_t *b, size_t count)
{
    struct fit fit = { 0 };

    for (size_t i = 0; i < count; i++) {
        enum kind x = a[i] >> KIND_AT, y = b[i] >> KIND_AT;
        int points = x == y ? of_one_kind(x, a[i] & DETAIL, b[i] & DETAIL, &fit) : of_two_kinds(x, y);
        fit.against += x != y && points <= CONTRADICTION;
        fit.some += x != NULL_WORD || y != NULL_WORD;
        fit.differing += x != y;
        fit.score += points * (i + 1 == count ? LAST_WEIGHT : WHOLE_WEIGHT) / WHOLE_WEIGHT;
    }
    return fit;
}

/* How many held blocks of this size the variable leads to that the role begins with. */
static uint64_t held_like(const struct classes *c, const struct size *size, int32_t role)
{
    uint64_t wanted = (uint64_t)c->root[role] << 32 | (uint64_t)(size - c->sizes), count = 0;
    size_t low = 0, high = c->held_count;

    while (low < high) {
        size_t middle = low + (high - low) / 2;
        if (c->held[middle] < wanted)
            low = middle + 1;
        else
            high = middle;
    }
    while (low + count < c->held_count && c->held[low + count] == wanted)
        count++;
    return count;
}

/* How many words are addresses of different places in a file that have no symbol: their codes may be equal. */
static int other_places(struct what *what, long a, long b, const uint32_t *codes, size_t count)
{
    const struct block *list = what->blocks.list;
    uint64_t x, y;
    int found = 0;

    for (size_t i = 0; i < count; i++)
        found += codes[i] >> KIND_AT == IN_FILE && !(codes[i] & NAMED)
            && word_at(&what->core, list[a].start + i * WORD, &x) && word_at(&what->core, list[b].start + i * WORD, &y)
            && x != y && module_of(&what->modules, y) != NONE;
    return found;
}

/* The class that fits best, if enough speaks for it and nothing against it. */
static struct likeness best_of(struct what *what, struct classes *c, long block, const uint32_t *codes, size_t count)
{
    const struct size *size = size_of(c, what->blocks.list[block].size);
    enum { MOST_COUNTED = 10, FOR_EACH = 2 };
    struct fit best = { .score = INT64_MIN };
    const struct class *found = NULL;

    for (uint32_t i = size->first; i && c->compared < most_compared; i = c->list[i - 1].next) {
        const struct class *class = c->list + i - 1;
        struct fit fit = compare(codes, c->pool + class->codes, count);
        fit.score += FOR_EACH * (class->count < MOST_COUNTED ? class->count : MOST_COUNTED);
        c->compared += count;
        if (fit.score > best.score)
            best = fit, found = class;
    }
    if (!found || best.strong < LEAST_STRONG || best.against || c->compared >= most_compared)
        return (struct likeness){ NONE, NONE, 0 };
    best.differing += other_places(what, block, found->first, codes, count);
    if (best.differing * MOST_DIFFERING > best.some)
        return (struct likeness){ NONE, NONE, 0 };
    return (struct likeness){ found->first, found->role, held_like(c, size, found->role) };
}

static int has_nothing(const uint32_t *codes, size_t count)
{
    for (size_t i = 0; i < count; i++)
        if (codes[i] >> KIND_AT != NULL_WORD)
            return 0;
    return 1;
}

/* Whether the kinds of the words are the same again and again, three times at least: an array of structures. */
static int is_periodic(const uint32_t *codes, size_t count)
{
    enum { LEAST = 2, TIMES = 3 };

    for (size_t period = LEAST; period * TIMES <= count; period++) {
        size_t at = period;
        while (at < count && codes[at] >> KIND_AT == codes[at - period] >> KIND_AT)
            at++;
        if (at / period >= TIMES && (at == count || has_nothing(codes + at, count - at)))
            return 1;
    }
    return 0;
}

/* Whether the word may be what malloc left there: the size of a chunk, which is a multiple of 16, and a bit. */
static int is_left(uint32_t code)
{
    enum { LEAST = 32, ALIGNMENT = 16 };
    uint32_t number = code & DETAIL;

    return code >> KIND_AT == SMALL && number >= LEAST && number % ALIGNMENT == 1;
}

/* Whether all words that are not null are addresses of blocks. Arrays of pointers look alike, whatever they are of. */
static int is_array(const uint32_t *codes, size_t count)
{
    enum { LEAST = 3 };
    size_t pointers = 0, some = 0;

    for (size_t i = 0; i < count; i++) {
        some += codes[i] >> KIND_AT != NULL_WORD && !is_left(codes[i]);
        pointers += codes[i] >> KIND_AT == BLOCK;
    }
    return pointers >= LEAST && pointers == some;
}

/* Whether a block begins with what freed memory leaves behind, or with letters, as a text that was written over. */
static int begins_doubtfully(uint32_t code)
{
    return code >> KIND_AT == OTHER || code >> KIND_AT == TEXT;
}

/* The held block that a lost one is like. Equal lost blocks get the same answer: numbers in them don't count for that.
 * */
struct likeness like_of(struct what *what, struct classes *c, long block)
{
    const struct size *size = is_candidate(what, block) ? size_of(c, what->blocks.list[block].size) : NULL;
    uint32_t codes[MOST_WORDS];
    uint64_t hash = what->blocks.list[block].size;
    size_t count, at;

    if (!size)
        return (struct likeness){ NONE, NONE, 0 };
    count = read_codes(what, what->blocks.list + block, codes);
    if (begins_doubtfully(*codes) || is_array(codes, count) || is_periodic(codes, count))
        return (struct likeness){ NONE, NONE, 0 };
    for (size_t i = 0; i < count; i++)
        hash = mixed(hash, codes[i] >> KIND_AT == SMALL ? (uint32_t)SMALL << KIND_AT : codes[i]);
    hash |= 1;
    for (at = hash % c->known_size; c->known[at].hash; at = (at + 1) % c->known_size)
        if (c->known[at].hash == hash)
            return c->known[at].likeness;
    c->left_out += c->compared >= most_compared;
    c->known[at] = (struct known){ hash, best_of(what, c, block, codes, count) };
    return c->known[at].likeness;
}

void tell_left_out(const struct classes *c)
{
    if (c->left_out)
        warn("too many kinds of blocks: %llu kinds of lost ones were not compared with held ones",
             (unsigned long long)c->left_out);
}
