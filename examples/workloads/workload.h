// What the workloads share. Each shares a work of one size out over the cores that take part, adds up a checksum that doesn't
// depend on how many these are or on who comes first, and prints it.
#ifndef WORKLOAD_H
#define WORKLOAD_H

#include "slacksim.h"

#include <stdio.h>

typedef struct {
    int begin, end;
} span;

// This core's share of the places from 0 to one less than these.
static inline span share_of(int places)
{
    return (span){places * core() / cores(), places * (core() + 1) / cores()};
}

// A number that looks like chance, and is the same for the same place. (The odd factors are primes.)
static inline unsigned chance(unsigned place)
{
    unsigned bits = (place + 1) * 2654435761u;
    bits = (bits ^ bits >> 15) * 2246822519u;
    return bits ^ bits >> 13;
}

// Part of a checksum that tells a value at a place from the same elsewhere.
static inline unsigned mixed(unsigned place, unsigned value)
{
    return (value + 1) * (2 * place + 1);
}

static atomic_uint checksum;
static barrier meeting;

// Adds a core's part of the checksum; once all have come, core 0 prints it as eight digits in base 16.
static inline int finish(unsigned own)
{
    atomic_fetch_add_explicit(&checksum, own, memory_order_relaxed);
    meet(&meeting);
    if (core() == 0) {
        for (int bit = 28; bit >= 0; bit -= 4)
            putchar("0123456789abcdef"[atomic_load_explicit(&checksum, memory_order_relaxed) >> bit & 15]);
        putchar('\n');
    }
    return 0;
}

#endif
