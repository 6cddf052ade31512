// Numbers that a library counts in a file, so that whoever started the program can read them.
#include <fcntl.h>
#include <stdatomic.h>
#include <stdlib.h>
#include <sys/mman.h>
#include <unistd.h>

// Maps the file COUNT_IN, if that is set, as so many numbers, all 0; else the numbers at `own` are counted.
static atomic_ulong *counts_in_file(atomic_ulong *own, size_t many) {
    const char *path = getenv("COUNT_IN");
    size_t size = many * sizeof(atomic_ulong);
    int file = path ? open(path, O_RDWR | O_CREAT | O_TRUNC, 0600) : -1;
    if (file < 0 || ftruncate(file, size) != 0) return own;
    void *shared = mmap(NULL, size, PROT_READ | PROT_WRITE, MAP_SHARED, file, 0);
    return shared == MAP_FAILED ? own : shared;
}

static unsigned long number_in(const char *name) {
    const char *text = getenv(name);
    return text ? strtoul(text, NULL, 10) : 0;
}
