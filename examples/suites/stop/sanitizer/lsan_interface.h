/* In place of LeakSanitizer's interface: checks are stops, ignored blocks are held, and what disables the checker or
 * adds roots does nothing. */
#include <stddef.h>

#include "../stop.h"

static inline void __lsan_do_leak_check(void) { leak_stop(0); }
static inline int __lsan_do_recoverable_leak_check(void) { return leak_stop(0); }
static inline void __lsan_disable(void) {}
static inline void __lsan_enable(void) {}
static inline void __lsan_ignore_object(const volatile void *at) { leak_ignore(at, 1); }
static inline void __lsan_register_root_region(const void *at, size_t size) { (void)at, (void)size; }
static inline void __lsan_unregister_root_region(const void *at, size_t size) { (void)at, (void)size; }
#ifdef __cplusplus
namespace __lsan {
struct ScopedDisabler {
    ~ScopedDisabler() {}
};
}
#endif
