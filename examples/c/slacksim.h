// What a program for SlackSim's cores has beside the C library. Every core calls main, and ends with what it gives; exit ends
// the core that calls it alone. What is printed by several cores at once is mixed byte by byte.
#ifndef SLACKSIM_H
#define SLACKSIM_H

#include <stdatomic.h>

// The bytes of a line of a cache, and how many cores a machine has at most.
enum { LINE = 16, MOST_CORES = 16 };

// Of an object that begins a line: with sizes that are multiples of LINE no two share one.
#define ON_A_LINE _Alignas(LINE)

// The number of this core, and how many take part: those with the numbers from 0 to one less.
int core(void);
int cores(void);

// Some cycles of doing nothing, in a loop that waits.
void rest(void);

// A lock that a core takes by a swap, once it looks free. All locks and barriers are free where they are zero.
typedef struct {
    ON_A_LINE atomic_int taken;
} spin_lock;

void spin_take(spin_lock *lock);
void spin_give(spin_lock *lock);

// A lock that cores get in the order in which they came for it.
typedef struct {
    ON_A_LINE atomic_uint next;
    ON_A_LINE atomic_uint served;
} ticket_lock;

void ticket_take(ticket_lock *lock);
void ticket_give(ticket_lock *lock);

// A place that no core leaves before all that take part have come.
typedef struct {
    ON_A_LINE atomic_int come;
    ON_A_LINE atomic_uint round;
} barrier;

void meet(barrier *place);

#endif
