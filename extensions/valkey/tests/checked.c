// Lets the address sanitizer and valgrind see all memory of a server: checks/valkey loads it before one.
//
// Both take malloc and free over. Redis 8 and Valkey 8 call jemalloc by other names as well, and open modules in a way that the sanitizer refuses.

#define _GNU_SOURCE
#include <dlfcn.h>
#include <stdlib.h>

// Of jemalloc's flags the only one that changes what a caller gets.
enum { ZEROED = 0x40 };

void *mallocx(size_t size, int flags) {
    return flags & ZEROED ? calloc(1, size) : malloc(size);
}

void *rallocx(void *block, size_t size, int flags) {
    (void)flags;
    return realloc(block, size);
}

void dallocx(void *block, int flags) {
    (void)flags;
    free(block);
}

void sdallocx(void *block, size_t size, int flags) {
    (void)size;
    (void)flags;
    free(block);
}

void *dlopen(const char *path, int flags) {
    void *(*next)(const char *, int) = (void *(*)(const char *, int))dlsym(RTLD_NEXT, "dlopen");
    return next(path, flags & ~RTLD_DEEPBIND);
}
