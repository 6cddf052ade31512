// The cores come under a lock TURNS times in all, each time to change the words of two lines, and work for themselves between.
// LOCK says which: SET swaps until the lock was free, LOOK swaps once it looks free, TICKET serves in the order of coming from
// one word that all look at, and QUEUE too, but each core looks at a word of the core before it.
#include "workload.h"

#define SET 1
#define LOOK 2
#define TICKET 3
#define QUEUE 4

#ifndef LOCK
#define LOCK LOOK
#endif
#ifndef TURNS
#define TURNS 256
#endif
#ifndef WORK
#define WORK 100
#endif

#if LOCK == SET

static spin_lock lock;

static void take(void)
{
    while (atomic_exchange_explicit(&lock.taken, 1, memory_order_acquire))
        continue;
}

static void give(void)
{
    spin_give(&lock);
}

#elif LOCK == LOOK

static spin_lock lock;

static void take(void)
{
    spin_take(&lock);
}

static void give(void)
{
    spin_give(&lock);
}

#elif LOCK == TICKET

static ticket_lock lock;

static void take(void)
{
    ticket_take(&lock);
}

static void give(void)
{
    ticket_give(&lock);
}

#else

// A place in the queue: its core has the lock, or waits for it. A core that gives the lock back leaves its place to the one
// behind it, which looks at it, and takes that of the one before it for its next turn.
typedef struct {
    ON_A_LINE atomic_int is_held;
} place;

static place places[MOST_CORES + 1];
ON_A_LINE static place *_Atomic last = &places[MOST_CORES];
static _Thread_local place *own, *before;

static void take(void)
{
    if (own == NULL)
        own = &places[core()];
    atomic_store_explicit(&own->is_held, 1, memory_order_relaxed);
    before = atomic_exchange_explicit(&last, own, memory_order_acq_rel);
    while (atomic_load_explicit(&before->is_held, memory_order_acquire))
        rest();
}

static void give(void)
{
    atomic_store_explicit(&own->is_held, 0, memory_order_release);
    own = before;
}

#endif

ON_A_LINE static unsigned shared[8];

static void change(unsigned value)
{
    for (int word = 0; word < 8; word++)
        shared[word] += mixed(word, value);
}

static unsigned work(unsigned value)
{
    volatile unsigned now = value;
    for (int step = 0; step < WORK / 10; step++)
        now += step;
    return now;
}

int main(void)
{
    unsigned sum = 0;
    span turns = share_of(TURNS);
    for (int turn = turns.begin; turn < turns.end; turn++) {
        take();
        change(turn);
        give();
        sum += work(turn);
    }
    static barrier done;
    meet(&done);
    if (core() == 0)
        for (int word = 0; word < 8; word++)
            sum += mixed(word, shared[word]);
    return finish(sum);
}
