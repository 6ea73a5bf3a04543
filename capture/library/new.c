/* C++'s operator new, by its names as the Itanium C++ ABI spells them. It calls malloc, of whose caller
 * nobody learns anything: so its own caller is kept for `record`, which takes it and clears it. */
#define _GNU_SOURCE
#include <dlfcn.h>
#include <stdlib.h>

#include "trace.h"

/* The operator that comes after this one. A C program may have loaded a library of C++ for that library
 * alone: then it is in none of the scopes that RTLD_NEXT searches. */
static void *next_operator(const char *symbol)
{
    static const char *const libraries[] = { "libstdc++.so.6", "libc++.so.1", "libc++abi.so.1" };
    void *found = dlsym(RTLD_NEXT, symbol);

    for (size_t i = 0; !found && i < sizeof libraries / sizeof *libraries; i++) {
        void *library = dlopen(libraries[i], RTLD_LAZY | RTLD_NOLOAD);
        if (library)
            found = dlsym(library, symbol);
    }
    if (!found)
        abort();
    return found;
}

#define NEW(symbol, parameters, arguments)                                              \
    PUBLIC void *symbol parameters;                                                     \
    PUBLIC void *symbol parameters                                                      \
    {                                                                                   \
        static void *(*real) parameters;                                                \
        if (UNLIKELY(!real))                                                            \
            real = (void *(*) parameters)next_operator(#symbol);                        \
        if (!caller_of_new.address)                                                     \
            caller_of_new = CALLER();                                                   \
        void *block = real arguments;                                                   \
        caller_of_new = (struct caller){ 0 };                                           \
        return block;                                                                   \
    }

NEW(_Znwm, (size_t size), (size))
NEW(_Znam, (size_t size), (size))
NEW(_ZnwmRKSt9nothrow_t, (size_t size, void *nothrow), (size, nothrow))
NEW(_ZnamRKSt9nothrow_t, (size_t size, void *nothrow), (size, nothrow))
NEW(_ZnwmSt11align_val_t, (size_t size, size_t alignment), (size, alignment))
NEW(_ZnamSt11align_val_t, (size_t size, size_t alignment), (size, alignment))
NEW(_ZnwmSt11align_val_tRKSt9nothrow_t, (size_t size, size_t alignment, void *nothrow),
    (size, alignment, nothrow))
NEW(_ZnamSt11align_val_tRKSt9nothrow_t, (size_t size, size_t alignment, void *nothrow),
    (size, alignment, nothrow))
