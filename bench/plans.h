/* Generated plans, the same on every machine. */
#ifndef BENCH_PLANS_H
#define BENCH_PLANS_H

#include "unit.h"

enum { PLANS = 24, MOST_GROUPS = 40 };

/* Kinds of requests that are asked about a plan. */
enum { NETWORK = 1, NARROWING = 2, COUNTING = 4, FILES = 8, SLOW = 16 };

struct plan {
    int nodes, arcs;
    uint32_t list[4 * MOST_ARCS];
    int32_t supplies[MOST_NODES];
    /* what a reason and a held count are asked for */
    uint32_t arc, end, count;
    /* of a counting plan, whose network is the one above */
    int variables, values;
    uint64_t domains[MOST_NODES];
    uint32_t counts[2 * MOST_NODES];
    /* the network's file, and a block whose payload is asked for */
    size_t file_length;
    uint8_t file[MOST_FILE];
    uint32_t block;
};

/* Plans of one family and size: PLANS of them, or one slow plan. */
struct group {
    const char *name;
    int kinds, plan_count;
    struct plan plans[PLANS];
};

extern struct group groups[MOST_GROUPS];

/* Makes all groups, and says how many there are. Every plan is well-formed. */
int make_groups(void);

/* Adds an arc, and lets the supplies follow its count. */
void put_arc(struct plan *p, uint32_t from, uint32_t to, uint32_t low, uint32_t high, uint32_t count);

void print_plan(const struct plan *p);

#endif
