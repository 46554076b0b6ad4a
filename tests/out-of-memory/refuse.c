// Refuses one allocation of a program, or one thread, when preloaded. Calls are counted from 1:
// - call REFUSE_ALLOCATION of malloc and realloc fails as on a system that is out of memory;
// - call REFUSE_THREAD of pthread_create fails as on a system that has no more threads.
// A refusal makes the file REFUSED, so a run that met one differs from a run that met none, however it ended.
#define _GNU_SOURCE
#include <dlfcn.h>
#include <errno.h>
#include <fcntl.h>
#include <pthread.h>
#include <stdatomic.h>
#include <stdlib.h>
#include <unistd.h>

static atomic_ulong allocations, threads;
static unsigned long refused_allocation, refused_thread;

static unsigned long number(const char *name) {
    const char *text = getenv(name);
    return text ? strtoul(text, NULL, 10) : 0;
}

__attribute__((constructor)) static void begin(void) {
    atomic_store(&allocations, 0);
    refused_allocation = number("REFUSE_ALLOCATION");
    refused_thread = number("REFUSE_THREAD");
}

static int is_refused(atomic_ulong *calls, unsigned long refused) {
    if (refused == 0 || atomic_fetch_add(calls, 1) + 1 != refused) return 0;
    const char *path = getenv("REFUSED");
    int file = path ? open(path, O_CREAT | O_WRONLY, 0600) : -1;
    if (file >= 0) close(file);
    return 1;
}

void *malloc(size_t size) {
    static void *(*next)(size_t);
    if (!next) next = (void *(*)(size_t))dlsym(RTLD_NEXT, "malloc");
    if (!is_refused(&allocations, refused_allocation)) return next(size);
    errno = ENOMEM;
    return NULL;
}

void *realloc(void *old, size_t size) {
    static void *(*next)(void *, size_t);
    if (!next) next = (void *(*)(void *, size_t))dlsym(RTLD_NEXT, "realloc");
    if (!is_refused(&allocations, refused_allocation)) return next(old, size);
    errno = ENOMEM;
    return NULL;
}

int pthread_create(pthread_t *thread, const pthread_attr_t *attributes, void *(*start)(void *), void *argument) {
    static int (*next)(pthread_t *, const pthread_attr_t *, void *(*)(void *), void *);
    if (!next)
        next = (int (*)(pthread_t *, const pthread_attr_t *, void *(*)(void *), void *))dlsym(RTLD_NEXT, "pthread_create");
    return is_refused(&threads, refused_thread) ? EAGAIN : next(thread, attributes, start, argument);
}
