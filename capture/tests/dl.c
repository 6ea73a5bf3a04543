/* expect: 61 77 93 109 */
#include <dlfcn.h>
#include "lose.h"
static void *load(const char *file, const char *call)
{
    void *library = dlopen(file, RTLD_NOW | RTLD_LOCAL);
    ((void (*)(void))dlsym(library, call))();
    return library;
}
int main(int argc, char **argv)
{
    load(argv[argc - 2], "module_work");
    for (int i = 0; i < 3; i++)
        if (dlclose(dlopen("libm.so.6", RTLD_NOW)))
            return 1;
    load(argv[argc - 1], "module_work");
    LOSE(malloc(93));
    rest();
}
