/* expect: 45 61 */
/* The pointer to what is lost is left in freed memory: only leak_trace -w lets that be seen. */
#include "lose.h"
static void *volatile held[3];
int main(void)
{
    void *volatile *places[3];
    for (int i = 0; i < 3; i++)
        places[i] = malloc(500);
    places[1][10] = malloc(45);
    places[1][20] = malloc(61);
    held[0] = (void *)places[0], held[2] = (void *)places[2];
    free((void *)places[1]);
    for (int i = 0; i < 3; i++)
        places[i] = NULL;
    rest();
}
