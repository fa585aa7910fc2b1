/* Slow plans. Between two hubs, west and east, stands a grid: each node of one group has a lane for one cage to each node
   of another. At the head of the list stand lanes whose ends fill the grid and lanes whose ends empty it, in turn. So each
   of these ends moves the whole grid again, and a path through the grid moves one cage. */
#include "slow.h"

#include <string.h>

enum { WEST, EAST, END, OTHER_END, WIDEST = BLENROP_WIDEST_HIGH };

/* ---- parts ---- */

static void lane(struct plan *p, uint32_t from, uint32_t to, uint32_t high, uint32_t count)
{
    put_arc(p, from, to, 0, high, count);
}

/* From `left` nodes, the first of which is `first`, to the `right` nodes after them. */
static void grid(struct plan *p, uint32_t first, uint32_t left, uint32_t right)
{
    for (uint32_t i = first; i < first + left; i++)
        for (uint32_t j = first + left; j < first + left + right; j++)
            lane(p, i, j, 1, 0);
}

/* From the west hub into the grid, and from the grid to the east hub: half full, so that they never end a path. */
static void sides(struct plan *p, uint32_t first, uint32_t left, uint32_t right, uint32_t high)
{
    for (uint32_t i = first; i < first + left; i++)
        lane(p, WEST, i, high, high / 2);
    for (uint32_t j = first + left; j < first + left + right; j++)
        lane(p, j, EAST, high, high / 2);
}

/* Nodes that every search from the west hub meets for nothing. */
static void leaves(struct plan *p, uint32_t first, uint32_t last)
{
    for (uint32_t v = first; v <= last; v++)
        lane(p, WEST, v, 20000, 10000);
}

/* A wide way over `steps` nodes, the first of which is `first`. */
static void way(struct plan *p, uint32_t from, uint32_t first, uint32_t steps, uint32_t to, uint32_t count)
{
    for (uint32_t v = first; v < first + steps; from = v++)
        lane(p, from, v, WIDEST, count);
    lane(p, from, to, WIDEST, count);
}

/* Puts full lanes, from the west hub to `end` and from `other` to `other_end` in turn, before all others, as many as
   there is room for. */
static void pulls(struct plan *p, uint32_t end, uint32_t other, uint32_t other_end, uint32_t high)
{
    int more = MOST_ARCS - p->arcs;
    memmove(p->list + 4 * more, p->list, 4 * (size_t)p->arcs * sizeof *p->list);
    p->arcs = 0;
    while (p->arcs < more) {
        int odd = p->arcs % 2;
        lane(p, odd ? other : WEST, odd ? other_end : end, high, high);
    }
    p->arcs = MOST_ARCS;
}

/* Takes `count` from the lanes between two nodes. */
static void lack(struct plan *p, uint32_t from, uint32_t to, uint32_t count)
{
    p->supplies[from] -= (int32_t)count;
    p->supplies[to] += (int32_t)count;
}

/* Among paths of one length the names of the nodes decide. */
static void name_nodes(struct plan *p, const uint8_t *names)
{
    int32_t supplies[MOST_NODES];
    memcpy(supplies, p->supplies, sizeof supplies);
    for (int v = 0; v < MOST_NODES; v++)
        p->supplies[names[v]] = supplies[v];
    for (int k = 0; k < p->arcs; k++) {
        p->list[4 * k] = names[p->list[4 * k]];
        p->list[4 * k + 1] = names[p->list[4 * k + 1]];
    }
}

/* ---- the five that were given ---- */

void slow_gadget(struct plan *p, int size, uint32_t right)
{
    uint32_t left = (uint32_t)size, high = left < right ? 700 : 900, first = END + 1;
    sides(p, first, left, right, 10000);
    grid(p, first, left, right);
    leaves(p, first + left + right, 62);
    pulls(p, END, EAST, END, high);
    lack(p, EAST, END, left * right);
}

/* The east hub is at the far end of a chain, the lanes of which point to and fro. */
void slow_chain(struct plan *p, int size, uint32_t right)
{
    static const uint8_t names[MOST_NODES] = {
        37, 49, 52, 62, 23, 46, 58, 63, 30, 16, 8,  38, 3,  40, 34, 47, 22, 2,  61, 0,  45, 21,
        19, 15, 24, 14, 54, 50, 10, 55, 31, 29, 4,  48, 60, 59, 11, 39, 33, 5,  27, 32, 20, 56,
        25, 28, 43, 51, 6,  36, 1,  42, 13, 53, 7,  9,  12, 26, 41, 35, 17, 18, 57, 44};
    uint32_t left = (uint32_t)size, high = left * right + 200, end = EAST + 1 + left + right, near = end + 1;
    for (uint32_t v = near; v <= 62; v++) {
        uint32_t next = v < 62 ? v + 1 : EAST, odd = (v - end) % 2;
        lane(p, odd ? v : next, odd ? next : v, high, odd ? high - 100 : 100);
    }
    sides(p, EAST + 1, left, right, 4000);
    grid(p, EAST + 1, left, right);
    pulls(p, end, near, end, high);
    lack(p, WEST, end, 50);
    lack(p, near, end, high - 150);
    name_nodes(p, names);
}

/* A lane that is held in the first flow gives its cages to a way round, so that the next one can pull. */
void slow_first(struct plan *p, int size, uint32_t right)
{
    static const uint8_t names[MOST_NODES] = {
        44, 58, 16, 9,  32, 5,  29, 50, 19, 24, 1,  18, 31, 60, 63, 35, 20, 54, 42, 4,  39, 59,
        0,  61, 57, 6,  34, 41, 37, 33, 14, 43, 52, 13, 17, 46, 3,  38, 7,  27, 22, 47, 2,  40,
        55, 10, 12, 45, 15, 62, 8,  48, 21, 49, 26, 11, 51, 36, 56, 25, 28, 23, 53, 30};
    uint32_t left = (uint32_t)size, first = OTHER_END + 1, next = first + left + right;
    way(p, WEST, next, 3, OTHER_END, 30000);
    way(p, EAST, next + 3, 3, END, 30000);
    sides(p, first, left, right, 10000);
    leaves(p, next + 6, 62);
    grid(p, first, left, right);
    pulls(p, END, EAST, OTHER_END, left * right);
    name_nodes(p, names);
}

/* ---- ladders ---- */

/* West and east are joined by rungs through the grid, which even rungs cross from left to right and odd ones from right to
   left. A rung is used up when it has filled the grid, or emptied it, cage by cage. Then the next one, four steps longer,
   is the shortest way. Returns the first node that is not used. */
static uint32_t ladder(struct plan *p, uint32_t side, uint32_t rungs)
{
    uint32_t left = OTHER_END + 1, right = left + side, into_left = right + side, from_left = into_left + 1;
    uint32_t into_right = into_left + 2, from_right = into_left + 3, next = into_left + 4, west = WEST, east = EAST;
    for (uint32_t i = 0; i < rungs; i++) {
        lane(p, west, i % 2 ? into_right : into_left, side * side, 0);
        lane(p, i % 2 ? from_left : from_right, east, side * side, 0);
        if (i + 1 == rungs)
            break;
        way(p, west, next, 1, next + 1, 0);
        way(p, next + 3, next + 2, 1, east, 0);
        west = next + 1;
        east = next + 3;
        next += 4;
    }
    for (uint32_t j = 0; j < side; j++) {
        way(p, into_left, left + j, 1, from_left, 0);
        way(p, into_right, right + j, 1, from_right, 0);
    }
    grid(p, left, side, side);
    return next;
}

/* A pulling lane holds one cage more than all rungs, so that its low end moves. */
void slow_ladder(struct plan *p, int size, uint32_t rungs)
{
    uint32_t side = (uint32_t)size, all = rungs * side * side;
    ladder(p, side, rungs);
    pulls(p, END, EAST, END, all + 1);
    lack(p, EAST, END, all);
}

/* The ways round are longer than the longest rung. */
void slow_first_ladder(struct plan *p, int size, uint32_t rungs)
{
    uint32_t side = (uint32_t)size, round = 4 * rungs, next = ladder(p, side, rungs);
    way(p, WEST, next, round, OTHER_END, 0);
    way(p, EAST, next + round, round, END, 0);
    pulls(p, END, EAST, OTHER_END, rungs * side * side);
}
