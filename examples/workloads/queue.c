// ITEMS numbers go through a queue of ROOM places under a lock: cores with even numbers put them in, the others take them out and
// add up what they took. One core alone does both in turn.
#include "workload.h"

#include <stdbool.h>

#ifndef ITEMS
#define ITEMS 256
#endif
#ifndef ROOM
#define ROOM 8
#endif

static struct {
    ticket_lock lock;
    ON_A_LINE unsigned items[ROOM];
    ON_A_LINE int put, taken; // how many were, since the start
} queue;

// Puts the next number in, where there is one and room for it; whether more are left.
static bool put_one(void)
{
    ticket_take(&queue.lock);
    bool is_left = queue.put < ITEMS;
    if (is_left && queue.put - queue.taken < ROOM) {
        queue.items[queue.put % ROOM] = chance(queue.put);
        queue.put++;
    }
    ticket_give(&queue.lock);
    return is_left;
}

// Takes the oldest number out, where there is one, and adds it to a sum; whether more are to come.
static bool take_one(unsigned *sum)
{
    ticket_take(&queue.lock);
    bool is_left = queue.taken < ITEMS;
    if (is_left && queue.taken < queue.put) {
        *sum += mixed(queue.taken, queue.items[queue.taken % ROOM]);
        queue.taken++;
    }
    ticket_give(&queue.lock);
    return is_left;
}

int main(void)
{
    unsigned sum = 0;
    bool puts = core() % 2 == 0, takes = core() % 2 == 1 || cores() == 1;
    while (puts || takes) {
        puts = puts && put_one();
        takes = takes && take_one(&sum);
    }
    return finish(sum);
}
