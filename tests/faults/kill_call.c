/* Loaded before the C library: the program is killed as it makes its KILLED-th call that changes a file or a folder, before the
   call is made; or the FAILED-th of these calls fails, and each one after it. With neither, or 0, nothing happens. */
#define _GNU_SOURCE
#include "counted_calls.h"
#include <dlfcn.h>
#include <errno.h>
#include <signal.h>
#include <sys/types.h>

static unsigned long killed, failed;

__attribute__((constructor)) static void begin(void)
{
    killed = number_in("KILLED");
    failed = number_in("FAILED");
}

/* Counts a call, and returns whether it fails. */
static int fails(void)
{
    unsigned long number = atomic_fetch_add(&calls, 1) + 1;
    if (number == killed)
        kill(getpid(), SIGKILL);
    return failed && number >= failed;
}

#define CALL(result, name, parameters, arguments)                                \
    result name parameters                                                       \
    {                                                                            \
        result(*next) parameters = (result(*) parameters)dlsym(RTLD_NEXT, #name); \
        if (fails()) {                                                           \
            errno = EIO;                                                         \
            return -1;                                                           \
        }                                                                        \
        return next arguments;                                                   \
    }

CALL(ssize_t, pwrite, (int file, const void *bytes, size_t size, off_t at), (file, bytes, size, at))
CALL(int, ftruncate, (int file, off_t size), (file, size))
CALL(int, fsync, (int file), (file))
CALL(int, fdatasync, (int file), (file))
CALL(int, rename, (const char *from, const char *to), (from, to))
CALL(int, link, (const char *from, const char *to), (from, to))
CALL(int, unlink, (const char *name), (name))

void _exit(int status)
{
    end_counted(status);
}
