/* Loaded before the C library: every other read or write is interrupted, and the others take one byte. */
#define _GNU_SOURCE
#include <dlfcn.h>
#include <errno.h>
#include <sys/types.h>
#include <unistd.h>

/* Whether this call is interrupted. */
static int is_interrupted(int *was)
{
    *was = !*was;
    errno = EINTR;
    return *was;
}

ssize_t read(int file, void *bytes, size_t size)
{
    static int was;
    ssize_t (*next)(int, void *, size_t) = dlsym(RTLD_NEXT, "read");
    return is_interrupted(&was) ? -1 : next(file, bytes, size > 0);
}

ssize_t write(int file, const void *bytes, size_t size)
{
    static int was;
    ssize_t (*next)(int, const void *, size_t) = dlsym(RTLD_NEXT, "write");
    return is_interrupted(&was) ? -1 : next(file, bytes, size > 0);
}
