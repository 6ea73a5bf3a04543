/* Objects of C++, each of a size of its own. What leak_what --types must say of each is in the lines that begin `type`.
 *
 * type 40 class shop::Basket
 * type 56 class shop::Basket::Item
 * type 72 struct shop::Pair<int, char> or array
 * type 88 struct shop::Pair<int, char> * or array
 * type 120 class shop::Window::Pane
 * type 136 class shop::Window::Pane::Glass
 */
#include <stdlib.h>
#include <unistd.h>
#include <vector>

namespace shop {
inline namespace version_two {
template <typename First, typename Second> struct Pair {
    First first;
    Second second;
    char bytes[28];
};
class Basket {
public:
    class Item {
    public:
        char bytes[56] = {};
    };
    Item *item = new Item;
    std::vector<Pair<int, char>> pairs = std::vector<Pair<int, char>>(2);
    char bytes[8] = {};
};
class Shape {
public:
    virtual ~Shape() {}
    char bytes[96] = {};
};
class Round : public Shape {
};
class Window {
public:
    class Pane; /* is defined out of the class */
    Pane *pane = nullptr;
};
class Window::Pane {
public:
    class Glass {
    public:
        char bytes[136] = {};
    };
    Glass *glass = new Glass;
    char bytes[112] = {};
};
class Hidden; /* is defined nowhere, but two others have its name without its namespace */
}
static Basket *basket = new Basket;
static Shape *shape = new Round; /* its table says the class */
static std::vector<Pair<int, char> *> *pointers = new std::vector<Pair<int, char> *>(11);
static std::vector<Pair<int, char>> *empty = new std::vector<Pair<int, char>>[5];
static Window window = {new Window::Pane};
static Hidden *hidden = static_cast<Hidden *>(operator new(152));
}
class Hidden {
    char bytes[152];
};
static Hidden *none;

int main()
{
    char byte;
    return read(0, &byte, 1) + !shop::basket + !shop::shape + !shop::pointers + !shop::empty + !shop::window.pane
        + !shop::hidden + !!none;
}
