// The C library on every core: each core fills an array of its own from malloc and sorts it, and adds its greatest number to a
// sum; core 0 waits for all, and prints. With four cores: 4 cores, sum 397.
#include "slacksim.h"

#include <stdio.h>
#include <stdlib.h>

enum { NUMBERS = 50 };

static atomic_int sum;
static barrier all;

static int by_value(const void *left, const void *right)
{
    return *(const int *)left - *(const int *)right;
}

static int greatest(void)
{
    int *numbers = malloc(NUMBERS * sizeof *numbers);
    if (numbers == NULL)
        exit(EXIT_FAILURE);
    for (int place = 0; place < NUMBERS; place++)
        numbers[place] = (place * 37 + core()) % 101;
    qsort(numbers, NUMBERS, sizeof *numbers, by_value);
    int found = numbers[NUMBERS - 1];
    free(numbers);
    return found;
}

int main(void)
{
    atomic_fetch_add(&sum, greatest());
    meet(&all);
    if (core() == 0)
        printf("%d cores, sum %d\n", cores(), sum);
    return EXIT_SUCCESS;
}
