// A library of C++, loaded into a program of C that has no libstdc++.
#include <string>
#include "lose.h"
static std::string *volatile held;
extern "C" void module_work();
extern "C" void module_work() { held = new std::string(300, 'x'); LOSE(new char[109]); delete new int; }
