/* In place of the headers of gperftools that its test includes: a check is a stop by the checker's name. */
#ifndef LEAK_STOP_TEST_H
#define LEAK_STOP_TEST_H

#include <cstdint>
#include <cstdlib>
#include <cstring>
#include <ctime>
#include <iostream>
#include <string>

#include "../stop.h"

#define HAVE_POLL_H 1
#define HAVE_STDINT_H 1
#define HAVE_UNISTD_H 1
#define HAVE_MMAP 1
#define HAVE_GRP_H 1
#define HAVE_PWD_H 1
#define ATTRIBUTE_UNUSED __attribute__((unused))

typedef int32_t int32;
typedef uint32_t uint32;
typedef int64_t int64;

enum { INFO = 0, WARNING = 1, ERROR = 2, FATAL = 3, kMallocHistogramSize = 64 };

static int32 FLAGS_verbose = -1;
static std::string FLAGS_heap_check;

static inline bool EnvToBool(const char *name, bool otherwise)
{
    const char *value = getenv(name);

    return value ? *value == '1' : otherwise;
}

#define DEFINE_bool(name, value, text) static bool FLAGS_##name = value
#define DECLARE_int64(name) struct leak_stop_unused_##name
#define DECLARE_string(name) struct leak_stop_unused_##name
#define VLOG_IS_ON(level) false
#define LOG(level, ...) if (false) std::cout
#define LOG_IF(level, condition, ...) do { (void)(condition); } while (0)
#define CHECK(condition) do { if (!(condition)) abort(); } while (0)
#define CHECK_EQ(a, b) CHECK((a) == (b))
#define CHECK_NE(a, b) CHECK((a) != (b))
#define CHECK_GE(a, b) CHECK((a) >= (b))

class HeapLeakChecker {
public:
    explicit HeapLeakChecker(const char *name) : name_(name) {}
    bool BriefNoLeaks() { return stop(); }
    bool BriefSameHeap() { return stop(); }
    bool SameHeap() { return stop(); }
    int64 BytesLeaked() { return 0; }
    int64 ObjectsLeaked() { return 0; }
    static bool NoGlobalLeaks() { leak_stop("global"); return true; }
    static bool IsActive() { return false; }
    static void CancelGlobalCheck() {}
    static void IgnoreObject(const void *block) { leak_ignore(block, 1); }
    static void UnIgnoreObject(const void *block) { leak_ignore(block, 0); }
    static const void *GetAllocCaller(void *) { return 0; }
    struct Disabler {
        ~Disabler() {}
    };

private:
    bool stop() { leak_stop(name_.c_str()); return true; }
    std::string name_;
};

template <class T> class HiddenPointer {
public:
    explicit HiddenPointer(T *at) : hidden_(~reinterpret_cast<uintptr_t>(at)) {}
    T *get() const { return reinterpret_cast<T *>(~hidden_); }

private:
    uintptr_t hidden_;
};

struct MallocExtension {
    static MallocExtension *instance() { static MallocExtension one; return &one; }
    bool VerifyAllMemory() { return true; }
    bool MallocMemoryStats(int *, size_t *, int *) { return false; }
};

struct MemoryRegionMap {
    struct Region {
        uintptr_t start_addr;
        uintptr_t caller() const { return 0; }
    };
    typedef const Region *RegionIterator;
    struct LockHolder {
        ~LockHolder() {}
    };
    static RegionIterator BeginRegionLocked() { return 0; }
    static RegionIterator EndRegionLocked() { return 0; }
};

static inline int GetStackTrace(void **, int, int) { return 1; }

#endif
