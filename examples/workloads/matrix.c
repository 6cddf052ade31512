// The product of two square matrices of SIZE rows. Each core makes some rows of it; with a BLOCK below SIZE it goes over the
// matrices in squares of BLOCK rows, whose words it uses several times while they are in the cache.
#include "workload.h"

#ifndef SIZE
#define SIZE 24
#endif
#ifndef BLOCK
#define BLOCK SIZE
#endif

typedef unsigned matrix[SIZE][SIZE];

ON_A_LINE static matrix left, right, product;

static void fill(span rows)
{
    for (int row = rows.begin; row < rows.end; row++)
        for (int column = 0; column < SIZE; column++) {
            left[row][column] = chance(row * SIZE + column) % 100;
            right[row][column] = chance(SIZE * SIZE + row * SIZE + column) % 100;
        }
}

static int least(int one, int other)
{
    return one < other ? one : other;
}

// Adds to a row of the product, in a block of columns, what a block of the right matrix gives.
static void add_block(int row, int first_column, int first)
{
    int last_column = least(first_column + BLOCK, SIZE), last = least(first + BLOCK, SIZE);
    for (int column = first_column; column < last_column; column++) {
        unsigned sum = product[row][column];
        for (int step = first; step < last; step++)
            sum += left[row][step] * right[step][column];
        product[row][column] = sum;
    }
}

static void multiply(span rows)
{
    for (int column = 0; column < SIZE; column += BLOCK)
        for (int step = 0; step < SIZE; step += BLOCK)
            for (int row = rows.begin; row < rows.end; row++)
                add_block(row, column, step);
}

static unsigned sum_of(span rows)
{
    unsigned sum = 0;
    for (int row = rows.begin; row < rows.end; row++)
        for (int column = 0; column < SIZE; column++)
            sum += mixed(row * SIZE + column, product[row][column]);
    return sum;
}

int main(void)
{
    static barrier filled;
    span rows = share_of(SIZE);
    fill(rows);
    meet(&filled);
    multiply(rows);
    return finish(sum_of(rows));
}
