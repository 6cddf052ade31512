// The cores share the numbers from 1 to 100 out and add up their squares; core 0 waits for all, and prints the sum: 338350.
#include "slacksim.h"

#include <stdio.h>

enum { NUMBERS = 100 };

static atomic_uint sum;
static barrier all;

int main(void)
{
    unsigned own = 0;
    for (unsigned n = core() + 1; n <= NUMBERS; n += cores())
        own += n * n;
    atomic_fetch_add(&sum, own);
    meet(&all);
    if (core() == 0)
        printf("%u\n", sum);
    return 0;
}
