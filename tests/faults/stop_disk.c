/* Loaded before the C library: a disk that stops. Of the calls on the file whose name ends with NAMED, the FAILED-th fails, and each
   one after it. With no FAILED, or 0, none fails. If LOSES is given, the machine seems to crash when the program ends: each file
   that it wrote has the bytes of its last fsync. */
#define _GNU_SOURCE
#include "counted_calls.h"
#include <dlfcn.h>
#include <errno.h>
#include <fcntl.h>
#include <limits.h>
#include <string.h>
#include <sys/stat.h>
#include <sys/types.h>

enum { MOST = 64 };

/* A file that was changed after its last fsync, with the bytes that it had then. */
static struct {
    char name[PATH_MAX];
    char *bytes;
    off_t size;
} unsynced[MOST];

static unsigned long failed;
static const char *named;
static int loses;

__attribute__((constructor)) static void begin(void)
{
    failed = number_in("FAILED");
    named = getenv("NAMED");
    loses = getenv("LOSES") != NULL;
}

static void *next(const char *name)
{
    return dlsym(RTLD_NEXT, name);
}

/* Writes the name of an open file, and returns it. */
static char *name_of(int file, char *name)
{
    char link[64];
    snprintf(link, sizeof link, "/proc/self/fd/%d", file);
    ssize_t size = readlink(link, name, PATH_MAX - 1);
    name[size > 0 ? size : 0] = 0;
    return name;
}

/* Counts a call on a file of this name, and returns whether it fails. */
static int fails(const char *name)
{
    size_t size = strlen(name), end = named ? strlen(named) : 0;
    if (!end || size < end || strcmp(name + size - end, named))
        return 0;
    calls++;
    if (!failed || calls < failed)
        return 0;
    errno = EIO;
    return 1;
}

static int place_of(const char *name)
{
    for (int i = 0; i < MOST; i++)
        if (unsynced[i].bytes && !strcmp(unsynced[i].name, name))
            return i;
    return MOST;
}

/* Keeps the bytes of a file before its first change. */
static void keep(int file, const char *name)
{
    ssize_t (*read_at)(int, void *, size_t, off_t) = next("pread");
    struct stat known;
    if (!loses || place_of(name) < MOST || fstat(file, &known))
        return;
    for (int i = 0; i < MOST; i++)
        if (!unsynced[i].bytes) {
            strcpy(unsynced[i].name, name);
            unsynced[i].size = known.st_size;
            unsynced[i].bytes = malloc(known.st_size + 1);
            if (!unsynced[i].bytes || read_at(file, unsynced[i].bytes, known.st_size, 0) != known.st_size)
                abort();
            return;
        }
    abort();
}

static void forget(const char *name)
{
    int i = place_of(name);
    if (i < MOST) {
        free(unsynced[i].bytes);
        unsynced[i].bytes = NULL;
    }
}

ssize_t pread(int file, void *bytes, size_t size, off_t at)
{
    char name[PATH_MAX];
    ssize_t (*call)(int, void *, size_t, off_t) = next("pread");
    return fails(name_of(file, name)) ? -1 : call(file, bytes, size, at);
}

ssize_t pwrite(int file, const void *bytes, size_t size, off_t at)
{
    char name[PATH_MAX];
    ssize_t (*call)(int, const void *, size_t, off_t) = next("pwrite");
    if (fails(name_of(file, name)))
        return -1;
    keep(file, name);
    return call(file, bytes, size, at);
}

int ftruncate(int file, off_t size)
{
    char name[PATH_MAX];
    int (*call)(int, off_t) = next("ftruncate");
    if (fails(name_of(file, name)))
        return -1;
    keep(file, name);
    return call(file, size);
}

static int sync_by(const char *function, int file)
{
    char name[PATH_MAX];
    int (*call)(int) = next(function);
    if (fails(name_of(file, name)) || call(file))
        return -1;
    forget(name);
    return 0;
}

int fsync(int file)
{
    return sync_by("fsync", file);
}

int fdatasync(int file)
{
    return sync_by("fdatasync", file);
}

int unlink(const char *name)
{
    int (*call)(const char *) = next("unlink");
    return fails(name) ? -1 : call(name);
}

/* Gives each file the bytes of its last fsync. */
static void crash(void)
{
    ssize_t (*write_at)(int, const void *, size_t, off_t) = next("pwrite");
    int (*cut)(int, off_t) = next("ftruncate");
    for (int i = 0; i < MOST; i++) {
        int file = unsynced[i].bytes ? open(unsynced[i].name, O_WRONLY) : -1;
        if (file >= 0 && (cut(file, 0) || write_at(file, unsynced[i].bytes, unsynced[i].size, 0) != unsynced[i].size))
            abort();
    }
}

void _exit(int status)
{
    crash();
    end_counted(status);
}
