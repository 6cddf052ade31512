// Counts idle turns: each ends by a call of sched_yield. The number of calls, over all threads, is added to the file COUNT_IN,
// a number of the machine's. With NO_THREADS set no thread can be made, so that legs run one after another.
#define _GNU_SOURCE
#include <dlfcn.h>
#include <errno.h>
#include <fcntl.h>
#include <pthread.h>
#include <stdatomic.h>
#include <stdlib.h>
#include <sys/mman.h>
#include <unistd.h>

static atomic_ulong own_calls;
static atomic_ulong *calls = &own_calls;
static int (*next_yield)(void);
static int (*next_create)(pthread_t *, const pthread_attr_t *, void *(*)(void *), void *);

__attribute__((constructor)) static void begin(void) {
    const char *path = getenv("COUNT_IN");
    next_yield = dlsym(RTLD_NEXT, "sched_yield");
    next_create = dlsym(RTLD_NEXT, "pthread_create");
    if (path) {
        int file = open(path, O_RDWR | O_CREAT, 0600);
        if (file >= 0 && ftruncate(file, sizeof(atomic_ulong)) == 0) {
            void *shared = mmap(NULL, sizeof(atomic_ulong), PROT_READ | PROT_WRITE, MAP_SHARED, file, 0);
            if (shared != MAP_FAILED) calls = shared;
        }
    }
}

int sched_yield(void) {
    atomic_fetch_add_explicit(calls, 1, memory_order_relaxed);
    return next_yield();
}

int pthread_create(pthread_t *thread, const pthread_attr_t *attributes, void *(*start)(void *), void *argument) {
    return getenv("NO_THREADS") ? EAGAIN : next_create(thread, attributes, start, argument);
}
