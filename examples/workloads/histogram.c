// How many of SIZE numbers fall into each of BINS bins: with SHARED in bins of all cores, to which they add in one step each, else
// in bins of each core's own, which are added up behind a barrier.
#include "workload.h"

#ifndef SIZE
#define SIZE 4096
#endif
#ifndef BINS
#define BINS 64
#endif

static unsigned bin_of(int place)
{
    return chance(place) % BINS;
}

#ifdef SHARED

ON_A_LINE static atomic_uint bins[BINS];

static void count(span places)
{
    for (int place = places.begin; place < places.end; place++)
        atomic_fetch_add_explicit(&bins[bin_of(place)], 1, memory_order_relaxed);
}

static unsigned in_bin(int bin)
{
    return atomic_load_explicit(&bins[bin], memory_order_relaxed);
}

#else

ON_A_LINE static unsigned bins[MOST_CORES][BINS];

static void count(span places)
{
    unsigned *own = bins[core()];
    for (int place = places.begin; place < places.end; place++)
        own[bin_of(place)]++;
}

static unsigned in_bin(int bin)
{
    unsigned sum = 0;
    for (int owner = 0; owner < cores(); owner++)
        sum += bins[owner][bin];
    return sum;
}

#endif

int main(void)
{
    static barrier counted;
    count(share_of(SIZE));
    meet(&counted);
    unsigned sum = 0;
    span own = share_of(BINS);
    for (int bin = own.begin; bin < own.end; bin++)
        sum += mixed(bin, in_bin(bin));
    return finish(sum);
}
