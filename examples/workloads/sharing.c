// Each core adds numbers to a sum of its own, STEPS in all. The sums lie side by side, so that four share a line and the cores
// take it from one another, though no core wants another's word; with APART each lies on a line of its own.
#include "workload.h"

#ifndef STEPS
#define STEPS 8192
#endif

typedef struct {
#ifdef APART
    ON_A_LINE
#endif
    volatile unsigned sum;
} counter;

ON_A_LINE static counter counters[MOST_CORES];

int main(void)
{
    counter *own = &counters[core()];
    span steps = share_of(STEPS);
    for (int step = steps.begin; step < steps.end; step++)
        own->sum += mixed(step, step);
    return finish(own->sum);
}
