/* expect: 45 */
/* Optimized code keeps any pointer in rbp. Here it is the lost block while operator new is called, of which nothing may
 * keep it. */
#include "lose.h"
extern "C" void *call_new(size_t size, void *rbp);
asm("call_new:\n push %rbp\n mov %rsi, %rbp\n call _Znwm@PLT\n pop %rbp\n ret");
static void *volatile held;
int main()
{
    held = call_new(61, malloc(45));
    scrub();
    rest();
}
