// Nodes of a line each point to one another in an order that looks like chance; the cores follow the pointers for STEPS steps in
// all, each from where the one before it will end. A step waits for the load of the last.
#include "workload.h"

#ifndef NODES
#define NODES 256
#endif
#ifndef STEPS
#define STEPS 8192
#endif

typedef struct node {
    ON_A_LINE struct node *next;
    unsigned value;
} node;

static node nodes[NODES];
static int order[NODES]; // in which the nodes are visited

static void shuffle(void)
{
    for (int place = 0; place < NODES; place++) {
        int other = chance(place) % (place + 1);
        order[place] = order[other];
        order[other] = place;
    }
}

static void link(span places)
{
    for (int place = places.begin; place < places.end; place++) {
        node *here = &nodes[order[place]];
        here->next = &nodes[order[(place + 1) % NODES]];
        here->value = chance(NODES + place);
    }
}

int main(void)
{
    static barrier shuffled, linked;
    if (core() == 0)
        shuffle();
    meet(&shuffled);
    link(share_of(NODES));
    meet(&linked);
    span steps = share_of(STEPS);
    unsigned sum = 0;
    const node *now = &nodes[order[steps.begin % NODES]];
    for (int step = steps.begin; step < steps.end; step++) {
        sum += now->value;
        now = now->next;
    }
    return finish(sum);
}
