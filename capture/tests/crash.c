/* expect: 45 61 */
#include "lose.h"
static void *volatile held;
int main(void)
{
    LOSE(malloc(45));
    held = malloc(29);
    LOSE(malloc(61));
    scrub();
    usleep(1);
    *(volatile int *)8 = 1;
    return held != NULL;
}
