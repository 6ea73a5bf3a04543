/* expect: 45 61 77 93 128 128 */
/* libstdc++ rounds up what it asks of aligned_alloc. */
#include <new>
#include <vector>
#include <string>
#include "lose.h"
struct A { char c[45]; };
struct B { A *a = new A; ~B() { delete a; } };
struct alignas(64) C { char c[64]; };
static B early;             /* a static constructor, held */
static std::vector<std::string> strings(100, std::string(200, 'x'));
int main()
{
    LOSE(new A);
    LOSE(new char[61]);
    LOSE(operator new(77, std::nothrow));
    LOSE(operator new[](93, std::nothrow));
    LOSE(operator new(109, std::align_val_t(64)));
    LOSE(operator new[](125, std::align_val_t(64)));
    try { LOSE(operator new((size_t)-1 >> 1)); } catch (std::bad_alloc &) { }
    for (int i = 0; i < 1000; i++) { delete new B; delete new C; }
    rest();
}
