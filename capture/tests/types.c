/* Holds blocks, each of a size of its own, whose types the variables that lead to them tell, or don't. What leak_what
 * --types must say of each size is in the lines that begin `type`; of a size without a line nothing.
 *
 * type 40 struct plain
 * type 56 struct deep
 * type 72 struct of_member
 * type 88 struct in_array
 * type 104 named_alone
 * type 120 struct elsewhere
 * type 136 struct local
 * type 152 struct many or array
 * type 168 struct many * or array
 * type 184 char * or array
 * type 200 struct behind
 * type 280 struct twice
 * type 312 struct outer
 * type 392 struct node
 */
#include <stdio.h>
#include "lose.h"
#define STRUCT(NAME, SIZE) struct NAME { char bytes[SIZE]; }
typedef void handler(void);
STRUCT(plain, 40);
STRUCT(of_member, 72);
STRUCT(in_array, 88);
STRUCT(local, 136);
STRUCT(many, 50); /* three of them are 150 */
STRUCT(behind, 200);
STRUCT(misfit, 100);
STRUCT(one_of_two, 216);
STRUCT(other_of_two, 216);
STRUCT(in_union, 232);
STRUCT(by_void, 248);
typedef struct {
    char bytes[104];
} named_alone;
struct nowhere;   /* not defined, but in main() one of its name */
struct elsewhere; /* defined in types_more.c */
struct twice;     /* defined there, and otherwise in main() */
struct either_one; /* defined there, and otherwise in types_other.c */
struct deep {
    struct of_member *member;
    struct in_array *list[4];
    void *by_void;
    union {
        struct in_union *member;
        long number;
    } either;
};
struct start { /* begins another one that has its size as malloc gives it */
    char bytes[290];
};
struct larger {
    struct start start;
    char more[5];
};
struct inner { /* begins another one, which is larger */
    char bytes[40];
};
struct outer {
    struct inner inner;
    struct behind *behind;
    char bytes[264];
};
struct unset { /* as by a macro, another one has the same members and one more */
    long kind;
    char data[354];
};
struct set {
    long kind;
    char data[354];
    int value;
};
struct link {
    struct link *next, *before;
};
struct node {
    struct node *next;
    handler *call;
    long number;
    void *buffer;
    char rest[360];
};
static struct plain *volatile plain;
struct deep *deep;
named_alone *alone;
struct elsewhere *elsewhere;
struct twice *twice;
struct nowhere *nowhere;
struct either_one *either_one;
struct many *many, **pointers, *within;
char **texts;
struct outer *outer;
struct misfit *misfit;
struct one_of_two *one_of_two;
struct other_of_two *other_of_two;
struct start *start;
struct unset *unset;
struct set *set;
struct link *linked;
struct node *nodes;
struct stale {
    struct plain *member;
    char bytes[432];
};
struct stale *stale;
void *unknown, *buffer;
volatile int used;
size_t size_of_elsewhere(void), size_of_twice(void), size_of_either_one(void);

static void *cleared(size_t size) { return calloc(1, size); }
__attribute__((noinline)) static void on_read(void) { used++; }
static struct node *node(struct node *next, long number)
{
    struct node *made = cleared(sizeof *made);
    made->next = next, made->call = on_read, made->number = number, made->buffer = buffer;
    return made;
}

__attribute__((noinline)) static void hold_all(void)
{
    static struct local *volatile local;

    plain = cleared(sizeof *plain);
    deep = cleared(sizeof *deep); /* 56 */
    deep->member = cleared(72), deep->list[2] = cleared(88), deep->by_void = cleared(248);
    deep->either.member = cleared(232);
    alone = cleared(sizeof *alone);
    elsewhere = cleared(size_of_elsewhere());
    twice = cleared(size_of_twice());
    local = cleared(sizeof *local);
    nowhere = cleared(424);
    either_one = cleared(size_of_either_one());
    many = cleared(3 * sizeof *many);
    pointers = cleared(168), pointers[1] = many, pointers[20] = many;
    texts = cleared(184);
    outer = cleared(sizeof *outer); /* 312 */
    outer->behind = cleared(200);
    misfit = cleared(264);
    one_of_two = cleared(216), other_of_two = (void *)one_of_two;
    start = cleared(296);
    unset = cleared(sizeof *set); /* 376 */
    linked = cleared(24);
    stale = cleared(sizeof *stale); /* 440, and it is a text by now */
    strcpy((char *)stale, "a text that begins so");
    within = (void *)((char *)cleared(344) + 16);
    unknown = cleared(248 + 112);
    buffer = cleared(600);
    nodes = node(node(node(NULL, 1), 2), 3);
    used += local->bytes[0];
}
__attribute__((noinline)) static void lose_all(void) { LOSE(node(NULL, 7)); }

int main(void)
{
    struct twice {
        char bytes[328];
    } on_stack;
    struct nowhere {
        char bytes[424];
    } on_stack_too;

    memset(&on_stack, 0, sizeof on_stack);
    memset(&on_stack_too, 0, sizeof on_stack_too);
    hold_all();
    lose_all();
    rest();
    return on_stack.bytes[used & 1] + on_stack_too.bytes[used & 1];
}
struct larger larger;
