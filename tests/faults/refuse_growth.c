/* Loaded before the C library: the REFUSED-th request for memory answers none; all others are the C library's. With no
   REFUSED, or 0, none is refused. */
#define _GNU_SOURCE
#include "counted_calls.h"
#include <errno.h>
#include <stddef.h>

extern void *__libc_malloc(size_t size);
extern void *__libc_calloc(size_t count, size_t size);
extern void *__libc_realloc(void *old, size_t size);

static atomic_ulong refused;

/* Whether this request is the one that is refused. The first is made before any thread is. */
static int is_refused(void)
{
    unsigned long before = atomic_fetch_add(&calls, 1);
    if (before == 0)
        refused = number_in("REFUSED");
    if (before + 1 == refused) {
        errno = ENOMEM;
        return 1;
    }
    return 0;
}

void *malloc(size_t size)
{
    return is_refused() ? NULL : __libc_malloc(size);
}

void *calloc(size_t count, size_t size)
{
    return is_refused() ? NULL : __libc_calloc(count, size);
}

void *realloc(void *old, size_t size)
{
    return is_refused() ? NULL : __libc_realloc(old, size);
}

void _exit(int status)
{
    end_counted(status);
}
