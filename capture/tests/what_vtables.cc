/* Loses blocks with words that lead into the tables of a class: to where an object's word leads, and to elsewhere,
 * which is nobody's word. What leak_what must say of each is in the lines that begin `what`; of another block nothing.
 *
 * what 72 word +0x8 _ZTV4Both+0x10
 * what 88 word +0x8 _ZTV4Both+0x38
 */
#include "lose.h"

struct Left {
    virtual long left() { return 1; }
    virtual long more() { return 2; }
    long of_left = 1;
};
struct Right {
    virtual long right() { return 3; }
    long of_right = 2;
};
struct Both : Left, Right {
    long left() override { return 4; }
    long right() override { return 5; }
};

/* A block with a number and this word. */
__attribute__((noinline)) static void *with(size_t size, long word)
{
    long *block = static_cast<long *>(calloc(1, size));
    block[0] = 7;
    block[1] = word;
    return block;
}

int main()
{
    static Both both;
    Both *volatile seen = &both;
    long first = *reinterpret_cast<long *>(seen), second = *reinterpret_cast<long *>(static_cast<Right *>(seen));
    LOSE(with(72, first));
    LOSE(with(88, second));
    LOSE(with(104, first + 8));
    LOSE(with(120, first - 16));
    LOSE(with(136, second - 8));
    LOSE(with(152, second + 4));
    rest();
}
