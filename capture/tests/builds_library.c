/* A library of builds.c: it gives blocks, and objects whose first word is the address of a table. */
#include <stdlib.h>
#include "builds.h"
#ifdef NEWER
int newer_library_before(int x) { return x * 5 + 1; }
void *newer_library_table[7] = { newer_library_before };
#else
void *older_library_table[4] = { malloc };
#endif
void *LIBRARY(give)(unsigned long size)
{
    char *block = malloc(size);
    if (block) *block = 1;
    return block;
}
void *LIBRARY(object)(void)
{
    void **object = LIBRARY(give)(77);
    if (object) *object = LIBRARY(table);
    return object;
}
