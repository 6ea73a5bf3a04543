/* The names of the two builds of builds.c and builds_library.c, which have no name in common. */
#ifdef NEWER
#define OWN(name) newer_##name
#define LIBRARY(name) newer_library_##name
#else
#define OWN(name) older_##name
#define LIBRARY(name) older_library_##name
#endif
void *older_library_give(unsigned long size), *older_library_object(void);
void *newer_library_give(unsigned long size), *newer_library_object(void);
