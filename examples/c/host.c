// What slacksim.h says, on a host with threads in the place of cores: the first word of the command line is how many.
#include "slacksim.h"

#include <pthread.h>
#include <sched.h>
#include <stdint.h>
#include <stdio.h>
#include <stdlib.h>

// The main of the program, which host.sh compiles under this name.
int each_core(void);

static int there;
static _Thread_local int number;

int core(void)
{
    return number;
}

int cores(void)
{
    return there;
}

void rest(void)
{
    sched_yield();
}

static void *run(void *own)
{
    number = (int)(intptr_t)own;
    return (void *)(intptr_t)each_core();
}

int main(int words, char **word)
{
    pthread_t threads[MOST_CORES];
    there = words == 2 ? atoi(word[1]) : 0;
    if (there < 1 || there > MOST_CORES) {
        fprintf(stderr, "%s: how many cores, from 1 to %d?\n", word[0], MOST_CORES);
        return 2;
    }
    for (intptr_t own = 0; own < there; own++)
        if (pthread_create(&threads[own], NULL, run, (void *)own) != 0)
            abort();
    int status = 0;
    for (int own = 0; own < there; own++) {
        void *code;
        pthread_join(threads[own], &code);
        if (code != NULL)
            status = 1;
    }
    return status;
}
