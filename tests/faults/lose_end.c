/* Loaded before the C library: the lane of station LOST of STATIONS, from 1, seems to be given up by
   the hub before the station's thread has ended, so that it can't report its end. No run of the
   program does that: it is done here to the words that both ends of a lane share. */
#define _GNU_SOURCE
#include <dlfcn.h>
#include <pthread.h>
#include <stdint.h>
#include <stdlib.h>

/* The words of a ring of rtrb, and the word in which an end notes that it was dropped. */
enum { WORDS = 48, FLAGS = 32, MOST = 4096 };

extern void *__libc_malloc(size_t size);
extern void __libc_free(void *block);

/* The blocks of this size up to the first thread; the last ones are the lanes, in their order. */
static uint64_t *blocks[MOST];
static unsigned count;
static int has_started, is_lost;

static unsigned number(const char *name)
{
    const char *text = getenv(name);
    return text ? atoi(text) : 0;
}

void *malloc(size_t size)
{
    void *block = __libc_malloc(size);
    if (size == WORDS * sizeof(uint64_t) && !has_started && count < MOST)
        blocks[count++] = block;
    return block;
}

/* After the loss each end believes that it is the last, and frees the ring. */
void free(void *block)
{
    if (!is_lost)
        __libc_free(block);
}

int pthread_create(pthread_t *thread, const pthread_attr_t *how, void *(*run)(void *), void *given)
{
    int (*create)(pthread_t *, const pthread_attr_t *, void *(*)(void *), void *);
    *(void **)&create = dlsym(RTLD_NEXT, "pthread_create");
    has_started = 1;
    return create(thread, how, run, given);
}

int pthread_join(pthread_t thread, void **result)
{
    int (*join)(pthread_t, void **);
    unsigned lost = number("LOST"), stations = number("STATIONS");
    *(void **)&join = dlsym(RTLD_NEXT, "pthread_join");
    int ended = join(thread, result);
    if (lost > 0 && lost <= stations && stations <= count) {
        blocks[count - stations + lost - 1][FLAGS] = 1;
        is_lost = 1;
    }
    return ended;
}
