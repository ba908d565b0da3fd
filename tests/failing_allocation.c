/* Laid before the C library: the allocation whose number FAIL_ALLOCATION gives, from 1, fails, and a byte is written
   to file descriptor 9 then. */
#define _GNU_SOURCE
#include <dlfcn.h>
#include <stdlib.h>
#include <unistd.h>

static int fails(void)
{
    static long left;
    static int known;
    if (!known) {
        const char *number = getenv("FAIL_ALLOCATION");
        left = number ? atol(number) : 0;
        known = 1;
    }
    if (left == 0 || --left != 0)
        return 0;
    return write(9, "f", 1) == 1;
}

void *malloc(size_t size)
{
    static void *(*next)(size_t);
    if (!next)
        next = (void *(*)(size_t))dlsym(RTLD_NEXT, "malloc");
    return fails() ? NULL : next(size);
}

void *realloc(void *old, size_t size)
{
    static void *(*next)(void *, size_t);
    if (!next)
        next = (void *(*)(void *, size_t))dlsym(RTLD_NEXT, "realloc");
    return fails() ? NULL : next(old, size);
}
