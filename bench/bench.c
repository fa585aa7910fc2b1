/* Asks one or two archives and a yardstick the same requests about the same plans, compares all answers, and prints the
   median time of a call and the stack of each entry.

       bench ROUNDS UNIT.so [BEFORE.so] */
#define _XOPEN_SOURCE 700
#include <dlfcn.h>
#include <stdio.h>
#include <stdlib.h>
#include <string.h>
#include <time.h>
#include <ucontext.h>

#include "plans.h"

enum { MOST_ROUNDS = 100, STACK_BYTES = 1 << 17, PAINT = 0xA5, STAYS = 7 };

/* ---- what is asked ---- */

/* All that a request can write. Every byte starts the same for everyone, so an entry that must stay is compared too. */
struct outcome {
    struct blenrop_answer answer;
    uint64_t domains[MOST_NODES];
    uint32_t arcs[4 * MOST_ARCS]; /* an arc buffer, lows, or a list of arcs */
    uint32_t highs[MOST_ARCS];
    int32_t supplies[MOST_NODES];
    uint8_t nodes[MOST_NODES];
    uint8_t file[MOST_FILE];
};

typedef void asks(const struct unit *, const struct plan *, struct outcome *);

/* Slices as they are lent. */
#define ALL(buffer) (buffer), sizeof(buffer) / sizeof *(buffer)
#define ARCS p->list, 4 * (size_t)p->arcs
#define ARC_STRUCTS (const struct blenrop_arc *)p->list, (size_t)p->arcs
#define SUPPLIES p->supplies, (size_t)p->nodes
#define DOMAINS p->domains, (size_t)p->variables
#define COUNTS p->counts, 2 * (size_t)p->values
#define FILE_BYTES p->file, p->file_length

#define REQUEST(name, ...) \
    static void ask_##name(const struct unit *u, const struct plan *p, struct outcome *o) \
    { \
        o->answer = u->name(__VA_ARGS__); \
    }

REQUEST(flow, ARCS, SUPPLIES, ALL(o->arcs), ALL(o->nodes))
REQUEST(narrow, ARCS, SUPPLIES, ALL(o->arcs), ALL(o->highs))
REQUEST(reason, ARCS, SUPPLIES, p->arc, p->end, ALL(o->arcs), ALL(o->nodes))
REQUEST(held, ARCS, SUPPLIES, p->arc, p->count, ALL(o->arcs))
REQUEST(flow_arcs, ARC_STRUCTS, SUPPLIES, ALL(o->arcs), ALL(o->nodes))
REQUEST(narrow_arcs, ARC_STRUCTS, SUPPLIES, ALL(o->arcs), ALL(o->highs))
REQUEST(count, DOMAINS, COUNTS, ALL(o->domains), ALL(o->arcs), ALL(o->highs))
REQUEST(count_network, DOMAINS, COUNTS, ALL(o->supplies), ALL(o->arcs))
REQUEST(file_read, FILE_BYTES, ALL(o->supplies), ALL(o->arcs))
REQUEST(file_write, ARCS, SUPPLIES, ALL(o->file))
REQUEST(file_payload, FILE_BYTES, p->block)

/* What `count` answers, read off one narrowing of the plan's network: an assignment has a pair if the pair's arc can
   have a count of 1. */
static void ask_narrow_to_count(const struct unit *u, const struct plan *p, struct outcome *o)
{
    uint32_t lows[MOST_ARCS], highs[MOST_ARCS];
    int pairs = p->variables * p->values;
    o->answer = u->narrow(ARCS, SUPPLIES, ALL(lows), ALL(highs));
    if (o->answer.number != BLENROP_DONE)
        return;
    for (int i = 0; i < p->variables; i++) {
        o->domains[i] = 0;
        for (int j = 0; j < p->values; j++)
            o->domains[i] |= (uint64_t)highs[i * p->values + j] << j;
    }
    memcpy(o->arcs, lows + pairs, (size_t)p->values * sizeof *lows);
    memcpy(o->highs, highs + pairs, (size_t)p->values * sizeof *highs);
}

/* It is asked about plans of its kind. The yardstick is the textbook program's entry of the same name, or another
   request to the unit, which gives the same answer. */
struct request {
    const char *name;
    size_t entry; /* where struct unit has it */
    asks *ask;
    int kind;
    const char *yardstick;
    asks *ask_yardstick;
};

#define ROW(name, kind, yardstick, ask_yardstick) \
    {#name, offsetof(struct unit, name), ask_##name, kind, yardstick, ask_yardstick}
#define BY_TEXTBOOK(name, kind) ROW(name, kind, "textbook", NULL)

static const struct request requests[] = {
    BY_TEXTBOOK(flow, NETWORK | SLOW),
    BY_TEXTBOOK(narrow, NARROWING),
    BY_TEXTBOOK(reason, NETWORK | SLOW),
    BY_TEXTBOOK(held, NETWORK | SLOW),
    ROW(flow_arcs, NETWORK, "flow", ask_flow),
    ROW(narrow_arcs, NETWORK, "narrow", ask_narrow),
    ROW(count, COUNTING, "narrow", ask_narrow_to_count),
    BY_TEXTBOOK(count_network, COUNTING),
    BY_TEXTBOOK(file_read, FILES),
    BY_TEXTBOOK(file_write, FILES),
    BY_TEXTBOOK(file_payload, FILES),
};

/* ---- who is asked ---- */

static struct unit unit, before; /* all null if there is no second archive */

static struct unit load(const char *path)
{
    struct unit u;
    void *archive = dlopen(path, RTLD_NOW | RTLD_LOCAL);
    if (!archive) {
        fprintf(stderr, "%s\n", dlerror());
        exit(2);
    }
#define FIND(name) *(void **)&u.name = dlsym(archive, "blenrop_" #name);
    EVERY_ENTRY(FIND)
#undef FIND
    return u;
}

static int has(const struct unit *u, const struct request *r)
{
    return *(void *const *)((const char *)u + r->entry) != NULL;
}

enum { UNIT, YARDSTICK, BEFORE, PARTIES };

/* One of those that are asked: a function and what it is asked of; no function if it is left out. */
struct party {
    asks *ask;
    const struct unit *of;
    struct outcome outcomes[PLANS];
    double times[MOST_ROUNDS * PLANS];
    double median;
    double ratio; /* to the unit's time */
    long stack;
};

static struct party parties[PARTIES];

static void choose(const struct request *r)
{
    parties[UNIT].ask = r->ask;
    parties[UNIT].of = &unit;
    parties[YARDSTICK].ask = r->ask_yardstick ? r->ask_yardstick : r->ask;
    parties[YARDSTICK].of = r->ask_yardstick ? &unit : &textbook;
    parties[BEFORE].ask = has(&before, r) ? r->ask : NULL;
    parties[BEFORE].of = &before;
    for (int a = 0; a < PARTIES; a++)
        parties[a].stack = 0;
}

/* ---- stack ---- */

static ucontext_t back, there;
static const struct party *on_stack;
static const struct plan *on_stack_plan;
static char *stack_top;

static void on_painted_stack(void)
{
    static struct outcome o;
    stack_top = __builtin_frame_address(0);
    on_stack->ask(on_stack->of, on_stack_plan, &o);
}

/* The bytes from the caller's frame down to the lowest that a call changes. What it reserves below and does not write is
   not seen. */
static long stack_bytes(const struct party *a, const struct plan *p)
{
    static char stack[STACK_BYTES];
    long untouched = 0;
    memset(stack, PAINT, sizeof stack);
    on_stack = a;
    on_stack_plan = p;
    getcontext(&there);
    there.uc_stack.ss_sp = stack;
    there.uc_stack.ss_size = sizeof stack;
    there.uc_link = &back;
    makecontext(&there, on_painted_stack, 0);
    swapcontext(&back, &there);
    while (untouched < STACK_BYTES && (unsigned char)stack[untouched] == PAINT)
        untouched++;
    if (untouched == 0) {
        fprintf(stderr, "the painted stack is too small\n");
        exit(2);
    }
    return (long)(stack_top - stack) - untouched;
}

static void measure_stack(struct party *a, const struct group *g)
{
    for (int i = 0; i < g->plan_count; i++) {
        long bytes = stack_bytes(a, &g->plans[i]);
        a->stack = a->stack < bytes ? bytes : a->stack;
    }
}

/* ---- answers ---- */

static void report(const struct request *r, const struct group *g, int i, const struct party *a)
{
    const struct outcome *one = &a->outcomes[i], *other = &parties[YARDSTICK].outcomes[i];
    const uint8_t *byte = (const uint8_t *)one, *other_byte = (const uint8_t *)other;
    size_t at = sizeof one->answer;
    printf("DIFFERENCE in blenrop_%s%s, %s\n", r->name, a == &parties[BEFORE] ? " before" : "", g->name);
    print_plan(&g->plans[i]);
    printf("the archive answers %u %u %lld, the yardstick %u %u %lld\n", one->answer.number, one->answer.index,
           (long long)one->answer.value, other->answer.number, other->answer.index, (long long)other->answer.value);
    while (at < sizeof *one && byte[at] == other_byte[at])
        at++;
    if (at < sizeof *one)
        printf("the buffers differ from byte %zu of struct outcome on\n", at);
}

/* Prints the first plan of a group about which the answers differ, and ends the program. */
static void must_agree(const struct request *r, const struct group *g, const struct party *a)
{
    for (int i = 0; i < g->plan_count; i++)
        if (memcmp(&a->outcomes[i], &parties[YARDSTICK].outcomes[i], sizeof *a->outcomes)) {
            report(r, g, i, a);
            exit(1);
        }
}

/* ---- time ---- */

static double microseconds(clockid_t clock)
{
    struct timespec t;
    clock_gettime(clock, &t);
    return (double)t.tv_sec * 1e6 + (double)t.tv_nsec / 1e3;
}

/* The time of one call. If the machine does something else in the middle of it, that is the processor's time; else the
   clock's, which is less since it is read inside. */
static double time_call(struct party *a, const struct plan *p, struct outcome *o)
{
    double processor = microseconds(CLOCK_THREAD_CPUTIME_ID), clock = microseconds(CLOCK_MONOTONIC);
    a->ask(a->of, p, o);
    clock = microseconds(CLOCK_MONOTONIC) - clock;
    processor = microseconds(CLOCK_THREAD_CPUTIME_ID) - processor;
    return clock < processor ? clock : processor;
}

static int by_size(const void *a, const void *b)
{
    double x = *(const double *)a, y = *(const double *)b;
    return (x > y) - (x < y);
}

static double median(double *numbers, int count)
{
    qsort(numbers, (size_t)count, sizeof *numbers, by_size);
    return numbers[count / 2];
}

/* A ratio is taken call by call, of the same plan and round, before the unit's times are put in order. */
static void sum_up(struct party *a, int calls)
{
    static double ratios[MOST_ROUNDS * PLANS];
    for (int i = 0; i < calls; i++)
        ratios[i] = a->times[i] / parties[UNIT].times[i];
    a->ratio = median(ratios, calls);
    a->median = median(a->times, calls);
}

/* Goes once round all the plans, so that no plan is warmer than another. */
static void time_round(struct party *a, const struct group *g, int round)
{
    memset(a->outcomes, STAYS, sizeof a->outcomes);
    for (int i = 0; i < g->plan_count; i++)
        a->times[round * g->plan_count + i] = time_call(a, &g->plans[i], &a->outcomes[i]);
}

/* All take turns, so that a slow moment of the machine meets each of them, and all answers of a round must agree. */
static void time_all(const struct request *r, const struct group *g, int rounds)
{
    for (int round = 0; round < rounds; round++) {
        for (int a = 0; a < PARTIES; a++)
            if (parties[a].ask)
                time_round(&parties[a], g, round);
        for (int a = 0; a < PARTIES; a++)
            if (parties[a].ask)
                must_agree(r, g, &parties[a]);
    }
    for (int a = PARTIES - 1; 0 <= a; a--)
        sum_up(&parties[a], rounds * g->plan_count);
}

/* ---- all of it ---- */

/* Columns stand two spaces apart at least, and no name has two: bench/tables relies on it. */
static void print_head(void)
{
    printf("%-14s  %-24s  %4s  %9s  %-9s  %9s  %7s", "request", "plans", "arcs", "unit us", "yardstick", "its us",
           "ratio");
    printf(before.flow ? "  %9s  %7s\n" : "\n", "before us", "ratio");
}

static void print_times(const struct request *r, const struct group *g)
{
    printf("%-14s  %-24s  %4d  %9.2f  %-9s  %9.2f  %7.2f", r->name, g->name, g->plans[0].arcs,
           parties[UNIT].median, r->yardstick, parties[YARDSTICK].median, parties[YARDSTICK].ratio);
    if (parties[BEFORE].ask)
        printf("  %9.2f  %7.2f", parties[BEFORE].median, parties[BEFORE].ratio);
    printf("\n");
    fflush(stdout);
}

static void print_stack(const struct request *r)
{
    printf("%-14s  %-24s  %ld", r->name, "stack, bytes", parties[UNIT].stack);
    if (parties[BEFORE].ask)
        printf("  before  %ld", parties[BEFORE].stack);
    printf("\n");
}

/* Returns how many calls were timed. */
static long bench(const struct request *r, int group_count, int rounds)
{
    long calls = 0;
    choose(r);
    for (const struct group *g = groups; g < groups + group_count; g++) {
        if (!(g->kinds & r->kind))
            continue;
        measure_stack(&parties[UNIT], g);
        if (parties[BEFORE].ask)
            measure_stack(&parties[BEFORE], g);
        time_all(r, g, rounds);
        print_times(r, g);
        calls += rounds * g->plan_count;
    }
    print_stack(r);
    return calls;
}

int main(int argc, char **argv)
{
    int rounds = argc < 3 ? 0 : atoi(argv[1]), group_count = make_groups();
    long calls = 0;
    if (rounds < 1 || MOST_ROUNDS < rounds)
        return fprintf(stderr, "bench ROUNDS UNIT.so [BEFORE.so], 1 to %d rounds\n", MOST_ROUNDS), 2;
    unit = load(argv[2]);
    if (3 < argc)
        before = load(argv[3]);
    print_head();
    for (size_t i = 0; i < sizeof requests / sizeof *requests; i++) {
        if (!has(&unit, &requests[i]))
            return fprintf(stderr, "the archive has no blenrop_%s\n", requests[i].name), 2;
        calls += bench(&requests[i], group_count, rounds);
    }
    printf("%ld calls timed, all answers agree\n", calls);
    return 0;
}
