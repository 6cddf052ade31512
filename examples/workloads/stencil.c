// A grid of SIZE rows whose inner places become the mean of their four neighbours, SWEEPS times. Each core has some rows, and
// all meet after each sweep, since a row reads those above and below.
#include "workload.h"

#ifndef SIZE
#define SIZE 32
#endif
#ifndef SWEEPS
#define SWEEPS 6
#endif

typedef unsigned grid[SIZE][SIZE];

ON_A_LINE static grid grids[2];

static void fill(span rows)
{
    for (int row = rows.begin; row < rows.end; row++)
        for (int column = 0; column < SIZE; column++)
            grids[0][row][column] = grids[1][row][column] = chance(row * SIZE + column) % 10000;
}

static void sweep(const grid from, grid to, span rows)
{
    for (int row = rows.begin; row < rows.end; row++)
        for (int column = 1; column < SIZE - 1; column++)
            to[row][column] = (from[row - 1][column] + from[row + 1][column] + from[row][column - 1] + from[row][column + 1]) / 4;
}

static unsigned sum_of(const grid it, span rows)
{
    unsigned sum = 0;
    for (int row = rows.begin; row < rows.end; row++)
        for (int column = 0; column < SIZE; column++)
            sum += mixed(row * SIZE + column, it[row][column]);
    return sum;
}

int main(void)
{
    static barrier swept;
    span rows = share_of(SIZE), inner = share_of(SIZE - 2);
    inner.begin++;
    inner.end++;
    fill(rows);
    meet(&swept);
    for (int time = 0; time < SWEEPS; time++) {
        sweep(grids[time % 2], grids[(time + 1) % 2], inner);
        meet(&swept);
    }
    return finish(sum_of(grids[SWEEPS % 2], rows));
}
