/* The families of plans. A network's arcs are given counts and bounds around them, and the supplies follow the counts,
   so that it has a flow; a counting plan's domains and ranges are drawn around an assignment in the same way. */
#include "plans.h"
#include "slow.h"

#include <stdio.h>
#include <stdlib.h>
#include <string.h>

static uint64_t seed;

/* splitmix64: small, and the same everywhere */
static uint64_t draw(void)
{
    uint64_t z = (seed += 0x9E3779B97F4A7C15u);
    z = (z ^ (z >> 30)) * 0xBF58476D1CE4E5B9u;
    z = (z ^ (z >> 27)) * 0x94D049BB133111EBu;
    return z ^ (z >> 31);
}

static uint32_t below(uint32_t n)
{
    return (uint32_t)(draw() % n);
}

/* ---- networks ---- */

void put_arc(struct plan *p, uint32_t from, uint32_t to, uint32_t low, uint32_t high, uint32_t count)
{
    uint32_t *arc = p->list + 4 * p->arcs++;
    arc[0] = from;
    arc[1] = to;
    arc[2] = low;
    arc[3] = high;
    p->supplies[from] += (int32_t)count;
    p->supplies[to] -= (int32_t)count;
}

static void add_arc(struct plan *p, uint32_t from, uint32_t to, uint32_t widest)
{
    uint32_t count = below(widest + 1);
    uint32_t low = below(2) ? 0 : below(count + 1);
    uint32_t high = below(4) ? count + below(widest - count + 1) : widest;
    put_arc(p, from, to, low, high, count);
}

static void sparse(struct plan *p, int arcs, uint32_t widest)
{
    while (p->arcs < arcs)
        add_arc(p, below(MOST_NODES), below(MOST_NODES), widest);
}

/* All arcs between eight nodes: many parallel and opposite ones, and self-loops. */
static void dense(struct plan *p, int arcs, uint32_t widest)
{
    while (p->arcs < arcs)
        add_arc(p, 8 * below(8), 8 * below(8), widest);
}

/* Eight layers of eight nodes, arcs from each to the next. */
static void layered(struct plan *p, int arcs, uint32_t widest)
{
    while (p->arcs < arcs) {
        uint32_t layer = below(7);
        add_arc(p, 8 * layer + below(8), 8 * (layer + 1) + below(8), widest);
    }
}

/* A sparse plan in which a set of few nodes has more than can leave it. */
static void infeasible(struct plan *p, int arcs, uint32_t widest)
{
    uint8_t in[MOST_NODES] = {0};
    uint32_t inside = below(MOST_NODES), outside;
    int64_t slack = 0;
    sparse(p, arcs, widest);
    in[inside] = 1;
    for (uint32_t more = below(4); 0 < more; more--)
        in[below(MOST_NODES)] = 1;
    do {
        outside = below(MOST_NODES);
    } while (in[outside]);
    for (int k = 0; k < arcs; k++) {
        const uint32_t *arc = p->list + 4 * k;
        slack += in[arc[0]] && !in[arc[1]] ? arc[3] : 0;
        slack -= !in[arc[0]] && in[arc[1]] ? arc[2] : 0;
    }
    for (int v = 0; v < MOST_NODES; v++)
        slack -= in[v] ? p->supplies[v] : 0;
    slack += 1 + below(widest);
    p->supplies[inside] += (int32_t)slack;
    p->supplies[outside] -= (int32_t)slack;
}

static int supplies_fit(const struct plan *p)
{
    for (int v = 0; v < p->nodes; v++)
        if (BLENROP_MOST_SUPPLY < abs(p->supplies[v]))
            return 0;
    return 1;
}

/* An arc with an end that moved, from `first` on, if the plan has one, and the middle of the arc's narrowed range. */
static void choose_questions(struct plan *p, uint32_t first, uint32_t end)
{
    uint32_t lows[MOST_ARCS], highs[MOST_ARCS], arcs = (uint32_t)p->arcs;
    struct blenrop_answer a = textbook.narrow(p->list, 4 * arcs, p->supplies, (size_t)p->nodes, lows, MOST_ARCS, highs,
                                              MOST_ARCS);
    p->arc = first;
    p->end = end;
    p->count = p->list[4 * first + 2];
    if (a.number != BLENROP_DONE)
        return;
    for (uint32_t step = 0; step < arcs; step++) {
        uint32_t k = (first + step) % arcs, end = p->end ? highs[k] : lows[k];
        if (end != p->list[4 * k + 2 + p->end]) {
            p->arc = k;
            break;
        }
    }
    p->count = (lows[p->arc] + highs[p->arc]) / 2;
}

/* A slow plan is asked about the first low end that moved; one that is drawn may pull nothing. */
static void ask_about(struct plan *p, int kinds)
{
    uint32_t first = kinds & SLOW ? 0 : below((uint32_t)p->arcs);
    uint32_t end = kinds & SLOW ? 0 : below(2);
    choose_questions(p, first, end);
}

/* ---- counting plans ---- */

/* Each domain has about half of all values; a value's range reaches two below and two above its uses at most. */
static void counting(struct plan *p, int variables, uint32_t values)
{
    uint32_t uses[MOST_NODES] = {0};
    p->variables = variables;
    p->values = (int)values;
    for (int i = 0; i < variables; i++) {
        uint32_t taken = below(values);
        uses[taken]++;
        p->domains[i] = (draw() | (uint64_t)1 << taken) & (((uint64_t)1 << values) - 1);
    }
    for (uint32_t j = 0; j < values; j++) {
        uint32_t less = below(3);
        p->counts[2 * j] = less < uses[j] ? uses[j] - less : 0;
        p->counts[2 * j + 1] = uses[j] + below(3);
    }
}

/* Four variables have three values between them, each to be used once at most. */
static void unassignable(struct plan *p, int variables, uint32_t values)
{
    counting(p, variables, values);
    for (int i = 0; i < 4; i++)
        p->domains[i] = 7;
    for (int j = 0; j < 3; j++) {
        p->counts[2 * j] = 0;
        p->counts[2 * j + 1] = 1;
    }
}

static void draw_network(struct plan *p)
{
    p->nodes = p->variables + p->values + 1;
    p->arcs = p->values * (p->variables + 1);
    textbook.count_network(p->domains, (size_t)p->variables, p->counts, 2 * (size_t)p->values, p->supplies, MOST_NODES,
                           p->list, 4 * MOST_ARCS);
}

/* ---- all of them ---- */

enum { MOST_SIZES = 4 };

/* `sizes` are arc counts and `breadth` the widest bound; of counting plans they are variables and values; slow.h says what
   they are of slow plans. */
struct family {
    const char *name;
    int kinds;
    makes_plan *make;
    uint32_t breadth;
    int sizes[MOST_SIZES]; /* then 0 */
};

#define SIZES {64, 256, 512}

static const struct family families[] = {
    {"sparse, to 65,535", NETWORK | NARROWING | FILES, sparse, BLENROP_WIDEST_HIGH, SIZES},
    {"sparse, to 10", NETWORK | NARROWING | FILES, sparse, 10, SIZES},
    {"dense, to 65,535", NETWORK | NARROWING, dense, BLENROP_WIDEST_HIGH, SIZES},
    {"dense, to 10", NETWORK | NARROWING, dense, 10, SIZES},
    {"layered, to 65,535", NETWORK | NARROWING, layered, BLENROP_WIDEST_HIGH, SIZES},
    {"layered, to 10", NETWORK | NARROWING, layered, 10, SIZES},
    {"infeasible, to 65,535", NETWORK | NARROWING, infeasible, BLENROP_WIDEST_HIGH, SIZES},
    {"infeasible, to 10", NETWORK | NARROWING, infeasible, 10, SIZES},
    {"5 variables, 5 values", COUNTING | NARROWING, counting, 5, {5}},
    {"7 variables, 56 values", COUNTING | NARROWING, counting, 56, {7}},
    {"31 variables, 15 values", COUNTING | NARROWING, counting, 15, {31}},
    {"31, 15, no assignment", COUNTING | NARROWING, unassignable, 15, {31}},
    {"slow: gadget 14x16", SLOW | NARROWING, slow_gadget, 16, {14}},
    {"slow: gadget 28x16", SLOW | NARROWING, slow_gadget, 16, {28}},
    {"slow: chain 12x16", SLOW | NARROWING, slow_chain, 16, {12}},
    {"slow: chain 14x16", SLOW | NARROWING, slow_chain, 16, {14}},
    {"slow: first 14x16", SLOW | NARROWING, slow_first, 16, {14}},
    {"slow: ladder 12x12x9", SLOW | NARROWING, slow_ladder, 9, {12}},
    {"slow: first 12x12x3", SLOW | NARROWING, slow_first_ladder, 3, {12}},
};

static void make_plan(const struct family *f, int size, struct plan *p)
{
    do {
        memset(p, 0, sizeof *p);
        p->nodes = MOST_NODES;
        f->make(p, size, f->breadth);
    } while (!supplies_fit(p));
    if (f->kinds & COUNTING)
        draw_network(p);
    ask_about(p, f->kinds);
    p->file_length = (size_t)textbook.file_write(p->list, 4 * (size_t)p->arcs, p->supplies, (size_t)p->nodes, p->file,
                                                 MOST_FILE).value;
    p->block = below((uint32_t)p->file_length / 512);
}

struct group groups[MOST_GROUPS];

int make_groups(void)
{
    int made = 0;
    for (size_t f = 0; f < sizeof families / sizeof *families; f++)
        for (const int *size = families[f].sizes; *size != 0; size++, made++) {
            groups[made].name = families[f].name;
            groups[made].kinds = families[f].kinds;
            groups[made].plan_count = families[f].kinds & SLOW ? 1 : PLANS;
            for (int i = 0; i < groups[made].plan_count; i++)
                make_plan(&families[f], *size, &groups[made].plans[i]);
        }
    return made;
}

void print_plan(const struct plan *p)
{
    printf("supplies");
    for (int v = 0; v < p->nodes; v++)
        printf(" %d", p->supplies[v]);
    printf("\n");
    for (int k = 0; k < p->arcs; k++)
        printf("arc %u %u %u %u\n", p->list[4 * k], p->list[4 * k + 1], p->list[4 * k + 2], p->list[4 * k + 3]);
    printf("asked: arc %u, end %u, count %u, block %u\n", p->arc, p->end, p->count, p->block);
}
