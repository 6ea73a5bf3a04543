/* expect: 61 */
/* A program that calls exec: what it lost before is gone, and the new program has a table of its own. */
#include "lose.h"
int main(int argc, char **argv)
{
    if (argc == 1) {
        LOSE(malloc(45));
        return execl(argv[0], argv[0], "again", NULL);
    }
    LOSE(malloc(61));
    rest();
}
