// SIZE numbers are sorted: runs of RUN numbers by insertion, and then pairs of runs are merged until one is left. The cores
// take turns at the runs and at the pairs, and meet after each round; in the last rounds there are fewer pairs than cores.
#include "workload.h"

#ifndef SIZE
#define SIZE 1024
#endif
#ifndef RUN
#define RUN 16
#endif

ON_A_LINE static unsigned numbers[2][SIZE];

static int least(int one, int other)
{
    return one < other ? one : other;
}

static void insert_all(unsigned *run, int count)
{
    for (int sorted = 1; sorted < count; sorted++) {
        unsigned number = run[sorted];
        int place = sorted;
        for (; place > 0 && run[place - 1] > number; place--)
            run[place] = run[place - 1];
        run[place] = number;
    }
}

static void make_runs(unsigned *all)
{
    for (int begin = core() * RUN; begin < SIZE; begin += cores() * RUN) {
        int end = least(begin + RUN, SIZE);
        for (int place = begin; place < end; place++)
            all[place] = chance(place);
        insert_all(all + begin, end - begin);
    }
}

// Merges two sorted runs, which end where the next one begins.
static void merge(const unsigned *from, unsigned *to, int left, int right, int end)
{
    int middle = right;
    for (int place = left, mine = left; place < end; place++)
        to[place] = mine < middle && (right == end || from[mine] <= from[right]) ? from[mine++] : from[right++];
}

static void merge_pairs(const unsigned *from, unsigned *to, int run)
{
    for (int begin = core() * 2 * run; begin < SIZE; begin += cores() * 2 * run)
        merge(from, to, begin, least(begin + run, SIZE), least(begin + 2 * run, SIZE));
}

int main(void)
{
    static barrier merged;
    int now = 0;
    make_runs(numbers[now]);
    meet(&merged);
    for (int run = RUN; run < SIZE; run *= 2, now = 1 - now) {
        merge_pairs(numbers[now], numbers[1 - now], run);
        meet(&merged);
    }
    unsigned sum = 0;
    span places = share_of(SIZE);
    for (int place = places.begin; place < places.end; place++)
        sum += mixed(place, numbers[now][place]);
    return finish(sum);
}
