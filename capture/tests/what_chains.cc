/* Loses a chain of nodes that many hash tables have, each as it should be: what takes longest to follow. */
#include <cstdint>
#include <unordered_map>
#include "lose.h"

enum { NODES = 200000, TABLES = 20000 };
struct node {
    node *next;
    long value[3];
};
struct table { /* as libstdc++ lays out an unordered map */
    void *buckets;
    long bucket_count;
    node *first;
    long elements;
    float load;
    long resize;
    void *only_bucket;
};

static node *chain()
{
    node *first = nullptr;
    for (int i = 0; i < NODES; i++) {
        auto made = static_cast<node *>(calloc(1, sizeof(node)));
        made->next = first;
        first = made;
    }
    return first;
}

__attribute__((noinline)) static void *many()
{
    auto tables = static_cast<table *>(calloc(TABLES, sizeof(table)));
    node *first = chain();

    for (int i = 0; i < TABLES; i++)
        tables[i] = { &tables[i].only_bucket, 1, first, NODES, 1.0f, 1, &tables[i].first };
    return tables;
}

int main()
{
    std::unordered_map<int, int> used; /* so that the library is there */

    used[TABLES] = 1;
    LOSE(many());
    rest();
}
