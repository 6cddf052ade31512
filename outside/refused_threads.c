// Refuses threads by their number, counted over the whole program: the REFUSE_FROM-th, and from there on each that comes
// REFUSE_STEP later (0: no other). In the file COUNT_IN stand the number of calls and how many of them were refused.
#define _GNU_SOURCE
#include "counts.h"
#include <dlfcn.h>
#include <errno.h>
#include <pthread.h>

enum { CALLS, REFUSED, COUNTS };

static atomic_ulong own_counts[COUNTS];
static atomic_ulong *counts = own_counts;
static unsigned long from, step;
static int (*next_create)(pthread_t *, const pthread_attr_t *, void *(*)(void *), void *);

__attribute__((constructor)) static void begin(void) {
    next_create = dlsym(RTLD_NEXT, "pthread_create");
    counts = counts_in_file(own_counts, COUNTS);
    from = number_in("REFUSE_FROM");
    step = number_in("REFUSE_STEP");
}

static int is_refused(unsigned long call) {
    return call == from || (step && call > from && (call - from) % step == 0);
}

int pthread_create(pthread_t *thread, const pthread_attr_t *attributes, void *(*start)(void *), void *argument) {
    if (!is_refused(atomic_fetch_add(&counts[CALLS], 1) + 1)) return next_create(thread, attributes, start, argument);
    atomic_fetch_add(&counts[REFUSED], 1);
    return EAGAIN;
}
