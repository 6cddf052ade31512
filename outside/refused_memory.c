// Lets the allocation of a number fail: the FAIL_AT-th call of malloc or realloc of the program (0: none), counted over all
// threads. The number of calls is counted in the file COUNT_IN.
#define _GNU_SOURCE
#include "counts.h"
#include <dlfcn.h>

static atomic_ulong own_calls;
static atomic_ulong *calls = &own_calls;
static unsigned long fail_at;
static void *(*next_malloc)(size_t);
static void *(*next_realloc)(void *, size_t);

__attribute__((constructor)) static void begin(void) {
    next_malloc = dlsym(RTLD_NEXT, "malloc");
    next_realloc = dlsym(RTLD_NEXT, "realloc");
    calls = counts_in_file(&own_calls, 1);
    atomic_store(calls, 0);
    fail_at = number_in("FAIL_AT");
}

static int is_refused(void) {
    unsigned long call = atomic_fetch_add(calls, 1) + 1;
    return fail_at && call == fail_at;
}

void *malloc(size_t size) {
    if (!next_malloc) next_malloc = dlsym(RTLD_NEXT, "malloc");
    return is_refused() ? NULL : next_malloc(size);
}

void *realloc(void *old, size_t size) {
    if (!next_realloc) next_realloc = dlsym(RTLD_NEXT, "realloc");
    return is_refused() ? NULL : next_realloc(old, size);
}
