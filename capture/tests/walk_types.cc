/* expect: 40 40 72 */
/* Objects with and without virtual functions, of two threads' arenas; three are lost. */
#include <map>
#include <string>
#include <thread>
#include <vector>
#include "lose.h"
namespace shapes {
struct shape { virtual ~shape() { } virtual int sides() const = 0; char c[30]; };
struct square : shape { int sides() const override { return 4; } };
template <class T> struct many : shape { int sides() const override { return 99; } T t[4]; };
}
static std::vector<shapes::shape *> held;
static std::map<std::string, std::string> strings;
static std::vector<std::string> of_the_thread;
static void work()
{
    for (int i = 0; i < 1000; i++) of_the_thread.push_back(std::string(40 + i % 99, 'y'));
    rest();
}
int main()
{
    for (int i = 0; i < 100; i++) held.push_back(new shapes::square);
    for (int i = 0; i < 1000; i++) strings[std::to_string(i)] = std::string(i % 90, 'x');
    LOSE(new shapes::square);
    LOSE(new shapes::square);
    LOSE(new shapes::many<long>);
    std::thread(work).detach();
    rest();
}
