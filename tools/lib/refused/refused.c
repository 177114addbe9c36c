// Refuses one allocation, or the start of one thread, to the program that it is loaded into: that of the number in
// REFUSED_ALLOCATION or REFUSED_THREAD, from 1. It then makes the file that REFUSED_MARK names.
#define _GNU_SOURCE
#include <dlfcn.h>
#include <errno.h>
#include <fcntl.h>
#include <pthread.h>
#include <stdatomic.h>
#include <stddef.h>
#include <stdlib.h>
#include <unistd.h>

void *__libc_malloc(size_t size);
void *__libc_calloc(size_t count, size_t size);
void *__libc_realloc(void *old, size_t size);
void *__libc_memalign(size_t alignment, size_t size);

static atomic_long allocations, threads;
static long refused_allocation, refused_thread;

__attribute__((constructor)) static void read_settings(void) {
    const char *allocation = getenv("REFUSED_ALLOCATION");
    const char *thread = getenv("REFUSED_THREAD");
    allocations = 0;
    refused_allocation = allocation ? atol(allocation) : 0;
    refused_thread = thread ? atol(thread) : 0;
}

static void mark(void) {
    const char *name = getenv("REFUSED_MARK");
    int file = name ? open(name, O_CREAT | O_WRONLY, 0600) : -1;
    if (file >= 0)
        close(file);
}

static int is_refused(void) {
    if (atomic_fetch_add(&allocations, 1) + 1 != refused_allocation)
        return 0;
    mark();
    errno = ENOMEM;
    return 1;
}

void *malloc(size_t size) { return is_refused() ? NULL : __libc_malloc(size); }

void *calloc(size_t count, size_t size) { return is_refused() ? NULL : __libc_calloc(count, size); }

void *realloc(void *old, size_t size) { return is_refused() ? NULL : __libc_realloc(old, size); }

void *memalign(size_t alignment, size_t size) { return is_refused() ? NULL : __libc_memalign(alignment, size); }

void *aligned_alloc(size_t alignment, size_t size) { return memalign(alignment, size); }

int posix_memalign(void **out, size_t alignment, size_t size) {
    void *found = memalign(alignment, size);
    if (!found)
        return ENOMEM;
    *out = found;
    return 0;
}

int pthread_create(pthread_t *thread, const pthread_attr_t *attributes, void *(*start)(void *), void *argument) {
    static int (*next)(pthread_t *, const pthread_attr_t *, void *(*)(void *), void *);
    if (!next)
        *(void **)&next = dlsym(RTLD_NEXT, "pthread_create");
    if (atomic_fetch_add(&threads, 1) + 1 == refused_thread) {
        mark();
        return EAGAIN;
    }
    return next(thread, attributes, start, argument);
}
