/* Preloaded into a program, refuses its allocation of number REFUSE and the start of its thread of number REFUSE_THREAD, each
   counted from 1. The file of descriptor 9 must be open for reading and writing. It always has how many allocations and how many
   threads were asked for so far, as two numbers of 8 octets. */
#define _GNU_SOURCE
#include <dlfcn.h>
#include <errno.h>
#include <pthread.h>
#include <stdatomic.h>
#include <stdlib.h>
#include <sys/mman.h>
#include <unistd.h>

struct counts {
    atomic_long allocations, threads;
};

static struct counts own, *counts = &own;

__attribute__((constructor)) static void begin(void) {
    if (ftruncate(9, sizeof own)) return;
    void *place = mmap(NULL, sizeof own, PROT_READ | PROT_WRITE, MAP_SHARED, 9, 0);
    if (place != MAP_FAILED) counts = place;
}

static long number_in(const char *name) {
    const char *text = getenv(name);
    return text ? atol(text) : 0;
}

static int is_refused(void) {
    static long refused = -1;
    if (refused < 0) refused = number_in("REFUSE");
    return atomic_fetch_add(&counts->allocations, 1) + 1 == refused;
}

void *malloc(size_t size) {
    static void *(*real)(size_t);
    if (!real) real = (void *(*)(size_t))dlsym(RTLD_NEXT, "malloc");
    if (is_refused()) { errno = ENOMEM; return NULL; }
    return real(size);
}

void *realloc(void *old, size_t size) {
    static void *(*real)(void *, size_t);
    if (!real) real = (void *(*)(void *, size_t))dlsym(RTLD_NEXT, "realloc");
    if (is_refused()) { errno = ENOMEM; return NULL; }
    return real(old, size);
}

void *aligned_alloc(size_t alignment, size_t size) {
    static void *(*real)(size_t, size_t);
    if (!real) real = (void *(*)(size_t, size_t))dlsym(RTLD_NEXT, "aligned_alloc");
    if (is_refused()) { errno = ENOMEM; return NULL; }
    return real(alignment, size);
}

int posix_memalign(void **place, size_t alignment, size_t size) {
    static int (*real)(void **, size_t, size_t);
    if (!real) real = (int (*)(void **, size_t, size_t))dlsym(RTLD_NEXT, "posix_memalign");
    if (is_refused()) return ENOMEM;
    return real(place, alignment, size);
}

int pthread_create(pthread_t *thread, const pthread_attr_t *attributes, void *(*start)(void *), void *argument) {
    static int (*real)(pthread_t *, const pthread_attr_t *, void *(*)(void *), void *);
    if (!real) real = (int (*)(pthread_t *, const pthread_attr_t *, void *(*)(void *), void *))dlsym(RTLD_NEXT, "pthread_create");
    if (atomic_fetch_add(&counts->threads, 1) + 1 == number_in("REFUSE_THREAD")) return EAGAIN;
    return real(thread, attributes, start, argument);
}
