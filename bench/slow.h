/* Slow plans: each maker makes one plan, the same every time. */
#ifndef BENCH_SLOW_H
#define BENCH_SLOW_H

#include "plans.h"

typedef void makes_plan(struct plan *, int size, uint32_t breadth);

/* Slow to narrow, or slow to find the first flow of. The grid is `size` by `breadth`. */
makes_plan slow_gadget, slow_chain, slow_first;

/* The worst found: a ladder of `breadth` rungs on a grid of `size` by `size`. */
makes_plan slow_ladder, slow_first_ladder;

#endif
