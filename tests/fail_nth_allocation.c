// Loaded in front of the C library (LD_PRELOAD), it refuses one request for memory: the one of the number FAIL_REQUEST,
// from 1, among those for memory and for threads. Where that one comes, the file FAIL_NOTE is made.
#define _GNU_SOURCE
#include <dlfcn.h>
#include <errno.h>
#include <fcntl.h>
#include <pthread.h>
#include <stdatomic.h>
#include <stddef.h>
#include <stdlib.h>
#include <unistd.h>

void *__libc_malloc(size_t size);
void *__libc_calloc(size_t count, size_t size);
void *__libc_realloc(void *old, size_t size);
void *__libc_memalign(size_t alignment, size_t size);

static atomic_long requests;
static long failing;
static const char *note;

__attribute__((constructor)) static void start(void)
{
    const char *number = getenv("FAIL_REQUEST");
    failing = number ? atol(number) : 0;
    note = getenv("FAIL_NOTE");
    atomic_store(&requests, 0);
}

static int is_refused(void)
{
    if (failing == 0 || atomic_fetch_add(&requests, 1) + 1 != failing) {
        return 0;
    }
    if (note) {
        int file = open(note, O_CREAT | O_WRONLY, 0600);
        if (file >= 0) {
            close(file);
        }
    }
    errno = ENOMEM;
    return 1;
}

void *malloc(size_t size)
{
    return is_refused() ? NULL : __libc_malloc(size);
}

void *calloc(size_t count, size_t size)
{
    return is_refused() ? NULL : __libc_calloc(count, size);
}

void *realloc(void *old, size_t size)
{
    return is_refused() ? NULL : __libc_realloc(old, size);
}

void *memalign(size_t alignment, size_t size)
{
    return is_refused() ? NULL : __libc_memalign(alignment, size);
}

void *aligned_alloc(size_t alignment, size_t size)
{
    return is_refused() ? NULL : __libc_memalign(alignment, size);
}

int posix_memalign(void **place, size_t alignment, size_t size)
{
    if (is_refused()) {
        return ENOMEM;
    }
    *place = __libc_memalign(alignment, size);
    return *place ? 0 : ENOMEM;
}

// A thread's stack is memory too.
int pthread_create(pthread_t *thread, const pthread_attr_t *attributes, void *(*body)(void *), void *argument)
{
    int (*create)(pthread_t *, const pthread_attr_t *, void *(*)(void *), void *) =
        (int (*)(pthread_t *, const pthread_attr_t *, void *(*)(void *), void *))dlsym(RTLD_NEXT, "pthread_create");
    return is_refused() ? EAGAIN : create(thread, attributes, body, argument);
}
