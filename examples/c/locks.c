// Locks and a barrier out of C's atomics, for any machine.
#include "slacksim.h"

void spin_take(spin_lock *lock)
{
    while (atomic_load_explicit(&lock->taken, memory_order_relaxed) ||
           atomic_exchange_explicit(&lock->taken, 1, memory_order_acquire))
        rest();
}

void spin_give(spin_lock *lock)
{
    atomic_store_explicit(&lock->taken, 0, memory_order_release);
}

void ticket_take(ticket_lock *lock)
{
    unsigned own = atomic_fetch_add_explicit(&lock->next, 1, memory_order_relaxed);
    while (atomic_load_explicit(&lock->served, memory_order_acquire) != own)
        rest();
}

void ticket_give(ticket_lock *lock)
{
    unsigned own = atomic_load_explicit(&lock->served, memory_order_relaxed);
    atomic_store_explicit(&lock->served, own + 1, memory_order_release);
}

void meet(barrier *place)
{
    unsigned round = atomic_load_explicit(&place->round, memory_order_relaxed);
    if (atomic_fetch_add_explicit(&place->come, 1, memory_order_acq_rel) + 1 == cores()) {
        atomic_store_explicit(&place->come, 0, memory_order_relaxed);
        atomic_store_explicit(&place->round, round + 1, memory_order_release);
    } else {
        while (atomic_load_explicit(&place->round, memory_order_acquire) == round)
            rest();
    }
}
