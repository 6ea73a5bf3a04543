/* Loses objects of C++ with containers, and what only looks like containers. Which container each lost block is of, and
 * where in a block of which size that is, is in the lines that begin `what`; of another block nothing is told.
 *
 * what 40 container tree 3 1000 +0x10
 * what 72 container hash 5 1016 +0x8
 * what 104 container buckets 13 1016 +0x8
 * what 56 container hash 1 1032 +0x8
 * what 216 container string 100 1064 +0x8
 */
#include <cstdio>
#include <deque>
#include <map>
#include <new>
#include <set>
#include <sstream>
#include <string>
#include <unordered_map>
#include <unordered_set>
#include <vector>
#include "lose.h"

template <typename First, int SIZE> struct With {
    long number = 7;
    First first;
    char rest[SIZE - sizeof(long) - sizeof(First)] = {};
};
template <int SIZE> struct Bytes {
    char bytes[SIZE] = {};
};

/* Each has blocks of sizes of its own. Elements of vectors are not told. */
__attribute__((noinline)) static void *tree(int nodes)
{
    auto made = new With<std::map<char, short>, 1000>;
    for (int i = 0; i < nodes; i++)
        made->first[i] = i;
    return made;
}

__attribute__((noinline)) static void *table()
{
    auto made = new With<std::unordered_map<long, Bytes<48>>, 1016>;
    made->first.rehash(13);
    for (int i = 0; i < 5; i++)
        made->first[i * 13];
    return made;
}

/* Its only bucket is in the table itself. */
__attribute__((noinline)) static void *small_table()
{
    auto made = new With<std::unordered_map<long, Bytes<40>>, 1032>;
    made->first.max_load_factor(100);
    made->first[1];
    return made;
}

__attribute__((noinline)) static void *vector()
{
    auto made = new With<std::vector<int>, 1048>;
    made->first.resize(20);
    return made;
}

__attribute__((noinline)) static void *text()
{
    auto made = new With<std::string, 1064>;
    made->first = std::string(100, 't');
    made->first.reserve(101); /* it takes room for 200 */
    return made;
}

/* A tree whose count is wrong, one in which a node has another parent, and a table of which a bucket leads elsewhere. */
__attribute__((noinline)) static void *wrong_count()
{
    auto made = new With<std::set<Bytes<100>, bool (*)(const Bytes<100> &, const Bytes<100> &)>, 1080>{
        7, std::set<Bytes<100>, bool (*)(const Bytes<100> &, const Bytes<100> &)>(
            [](const Bytes<100> &a, const Bytes<100> &b) { return a.bytes[0] < b.bytes[0]; })};
    for (int i = 0; i < 3; i++) {
        Bytes<100> one;
        one.bytes[0] = i;
        made->first.insert(one);
    }
    reinterpret_cast<long *>(made)[6] = 2; /* after the number, the comparison, and the five words of the own node */
    return made;
}

__attribute__((noinline)) static void *wrong_parent()
{
    auto made = new With<std::map<long, Bytes<120>>, 1096>;
    for (int i = 0; i < 3; i++)
        made->first[i];
    reinterpret_cast<void **>(reinterpret_cast<char *>(&*made->first.begin()) - 32)[1] = made;
    return made;
}

__attribute__((noinline)) static void *wrong_bucket()
{
    auto made = new With<std::unordered_map<long, Bytes<136>>, 1112>;
    made->first.rehash(29);
    made->first[1], made->first[2];
    (*reinterpret_cast<void ***>(&made->first))[5] = made;
    return made;
}

/* Its destructor ran: nothing of it is told, whatever is there. */
__attribute__((noinline)) static void *destroyed()
{
    using Ended = With<std::vector<Bytes<300>>, 1128>;
    auto made = new Ended;
    made->first.resize(1);
    made->~Ended();
    return made;
}

/* Buffers with a begin, a place and an end, of a deque, of a stream and of a file. */
__attribute__((noinline)) static void *deque() { return new With<std::deque<long>, 1144>; }
__attribute__((noinline)) static void *stream()
{
    auto made = new std::stringstream;
    *made << std::string(2000, 'x');
    return made;
}

__attribute__((noinline)) static void *file()
{
    FILE *made = fopen("/dev/null", "w");
    fputs("some text", made);
    return made;
}

/* A text of which the block has less room than it says, and one that goes on. */
__attribute__((noinline)) static void *no_text(size_t capacity, size_t length)
{
    auto made = static_cast<char **>(calloc(1, 1160));
    made[2] = static_cast<char *>(calloc(1, 152));
    made[2][0] = '\x01', made[2][1] = '\x02';
    made[3] = reinterpret_cast<char *>(length), made[4] = reinterpret_cast<char *>(capacity);
    return made;
}

int main()
{
    LOSE(tree(3));
    LOSE(table());
    LOSE(small_table());
    LOSE(vector());
    LOSE(text());
    LOSE(wrong_count());
    LOSE(wrong_parent());
    LOSE(wrong_bucket());
    LOSE(destroyed());
    LOSE(deque());
    LOSE(stream());
    LOSE(file());
    LOSE(no_text(100, 2));
    LOSE(no_text(150, 3));
    rest();
}
