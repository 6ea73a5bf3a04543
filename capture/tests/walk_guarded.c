/* walk_guarded FILE: three blocks with mappings of their own: one has a page that nothing may touch, one a page that can't be written, one
 * is as malloc gave it. Start and usable size of each are written to the file, without the last word, which a
 * walk leaves to no such block. */
#include <malloc.h>
#include <stdint.h>
#include <stdio.h>
#include <sys/mman.h>
#include "lose.h"
static char *volatile held[3];
int main(int count, char **words)
{
    FILE *file = count == 2 ? fopen(words[1], "w") : NULL;

    for (int i = 0; file && i < 3; i++) {
        char *block = held[i] = malloc(1 << 20), *page = (char *)(((uintptr_t)block + (512 << 10)) & -4096ul);
        if (i == 1)
            memset(page, 7, 4096);
        if (i < 2 && mprotect(page, 4096, i ? PROT_READ : PROT_NONE))
            return 1;
        fprintf(file, "0x%lx 0x%zx\n", (unsigned long)block, malloc_usable_size(block) - sizeof(long));
    }
    if (!file || fclose(file))
        return 1;
    rest();
}
