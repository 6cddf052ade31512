// How a program begins and ends on SlackSim's cores, and what the C library wants of a system: the console, memory, locks.
#include "slacksim.h"

#include <errno.h>
#include <stdint.h>
#include <stdio.h>
#include <string.h>
#include <sys/lock.h>
#include <unistd.h>

// The simulator's services, and the code of a core that finds no room for its stack.
enum { PUT = 1, EXIT = 93, NO_ROOM = 127 };

int main(void);

// Of the linker script.
extern char image_end[], stack_size[], tls_begin[], tls_bytes[];

// A line of each core, in which it has put what isn't zero before it came to `begin`.
struct {
    ON_A_LINE int is_there;
} present[MOST_CORES];

static struct {
    ON_A_LINE atomic_int cores;
    uintptr_t heap, heap_end;
} machine;

static _Thread_local int number;

int core(void)
{
    return number;
}

int cores(void)
{
    return atomic_load_explicit(&machine.cores, memory_order_relaxed);
}

void rest(void)
{
    for (int turn = 0; turn < 4; turn++)
        asm volatile("");
}

static int call(int service, int value)
{
    register int argument asm("a0") = value;
    register int kind asm("a7") = service;
    asm volatile("ecall" : "+r"(argument) : "r"(kind) : "memory");
    return argument;
}

_Noreturn void _exit(int code)
{
    for (;;)
        call(EXIT, code);
}

// How many cores there are, of which core 0 knows that it is one: their numbers have no gap.
static int count(void)
{
    int last = 0;
    for (int step = MOST_CORES / 2; step > 0; step /= 2)
        if (*(volatile int *)&present[last + step].is_there)
            last += step;
    return last + 1;
}

static void set_up(uintptr_t memory_end)
{
    int there = count();
    machine.heap = (uintptr_t)image_end;
    machine.heap_end = memory_end - there * (uintptr_t)stack_size;
    if (machine.heap_end < machine.heap || machine.heap_end > memory_end)
        _exit(NO_ROOM);
    atomic_store_explicit(&machine.cores, there, memory_order_release);
}

// Where start.S goes. A core that core 0 didn't find, since it came too late, takes no part.
_Noreturn void begin(int own, uintptr_t memory_end)
{
    memcpy(__builtin_thread_pointer(), tls_begin, (uintptr_t)tls_bytes);
    number = own;
    if (own == 0)
        set_up(memory_end);
    while (atomic_load_explicit(&machine.cores, memory_order_acquire) == 0)
        rest();
    _exit(own < cores() ? main() : 0);
}

static int put(char letter, FILE *stream)
{
    (void)stream;
    call(PUT, letter);
    return (unsigned char)letter;
}

static FILE console = FDEV_SETUP_STREAM(put, NULL, NULL, _FDEV_SETUP_WRITE);
FILE *const stdout = &console;
FILE *const stderr = &console;

// The C library calls this under its lock.
void *sbrk(ptrdiff_t more)
{
    if (more > 0 ? (uintptr_t)more > machine.heap_end - machine.heap : machine.heap + more < (uintptr_t)image_end) {
        errno = ENOMEM;
        return (void *)-1;
    }
    uintptr_t old = machine.heap;
    machine.heap += more;
    return (void *)old;
}

// The locks of the C library, of which it has one, that a core may take again while it has it.
struct __lock {
    spin_lock lock;
    atomic_int owner; // the core that has it, and 1 more
    int depth;
};

struct __lock __lock___libc_recursive_mutex;

void __retarget_lock_acquire_recursive(_LOCK_T lock)
{
    if (atomic_load_explicit(&lock->owner, memory_order_relaxed) != core() + 1) {
        spin_take(&lock->lock);
        atomic_store_explicit(&lock->owner, core() + 1, memory_order_relaxed);
    }
    lock->depth++;
}

void __retarget_lock_release_recursive(_LOCK_T lock)
{
    if (--lock->depth == 0) {
        atomic_store_explicit(&lock->owner, 0, memory_order_relaxed);
        spin_give(&lock->lock);
    }
}
