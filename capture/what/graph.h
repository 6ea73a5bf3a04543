/* Lost blocks and which of them lead to which, as numbers from 1 on; 0 leads to those that no other leads to. */
#ifndef LEAK_WHAT_GRAPH_H
#define LEAK_WHAT_GRAPH_H

#include <stddef.h>
#include <stdint.h>

struct graph {
    uint32_t count;             /* the greatest number */
    uint32_t *first;            /* of each its first edge; the next one's first is where they end */
    uint32_t *to;               /* by edge */
};

/* Sets of each number the last one that every way from 0 passes (its immediate dominator), and the order in which a
 * search from 0 meets them: those that dominate come before. */
void find_dominators(const struct graph *graph, uint32_t *dominator, uint32_t *order);

#endif
