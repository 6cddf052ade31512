// SIZE numbers are added up, TIMES times with other numbers: each core adds its share, and then pairs of sums are added until one
// is left, with a barrier after each step of this tree.
#include "workload.h"

#ifndef SIZE
#define SIZE 512
#endif
#ifndef TIMES
#define TIMES 8
#endif

static struct {
    ON_A_LINE unsigned sum;
} parts[MOST_CORES];
static barrier added;

static void add_share(int time)
{
    span places = share_of(SIZE);
    unsigned sum = 0;
    for (int place = places.begin; place < places.end; place++)
        sum += chance(time * SIZE + place);
    parts[core()].sum = sum;
    meet(&added);
}

static void add_pairs(void)
{
    for (int apart = 1; apart < cores(); apart *= 2) {
        if (core() % (2 * apart) == 0 && core() + apart < cores())
            parts[core()].sum += parts[core() + apart].sum;
        meet(&added);
    }
}

int main(void)
{
    unsigned sum = 0;
    for (int time = 0; time < TIMES; time++) {
        add_share(time);
        add_pairs();
        if (core() == 0)
            sum += mixed(time, parts[0].sum);
    }
    return finish(sum);
}
