/* The questions about a network as a textbook answers them: residual adjacency lists, and augmenting paths found
   breadth first with a queue (Edmonds-Karp). Written to be read, not tuned. Only well-formed plans are asked about, and
   the buffers are long enough. */
#include "unit.h"

enum { MOST_EDGES = 2 * (MOST_ARCS + MOST_NODES), NONE = -1 };
enum { FROM, TO, LOW, HIGH, ARC_ENTRIES };

/* Edge e and edge e ^ 1 are the two directions of one arc. Edge 2k has the room above the count of arc k, edge 2k + 1
   the room below it. */
struct net {
    const uint32_t *list;
    int arcs;
    int nodes; /* the plan's, then a source and a sink */
    int edges;
    int first[MOST_NODES + 2];
    int next[MOST_EDGES];
    int to[MOST_EDGES];
    int32_t room[MOST_EDGES];
};

static void add_edge(struct net *g, int from, int to, int32_t room)
{
    int e = g->edges;
    g->to[e] = to;
    g->room[e] = room;
    g->next[e] = g->first[from];
    g->first[from] = e;
    g->to[e + 1] = from;
    g->room[e + 1] = 0;
    g->next[e + 1] = g->first[to];
    g->first[to] = e + 1;
    g->edges = e + 2;
}

/* Searches from s until t is found, along edges that have room, or against them. by[v] is the edge that found v. The
   edges of the arc `skip` are not used. */
static void search(const struct net *g, int s, int t, int against, int skip, int *by, uint8_t *found)
{
    int queue[MOST_NODES + 2], head = 0, tail = 0;
    for (int v = 0; v < g->nodes; v++)
        found[v] = 0;
    found[s] = 1;
    queue[tail++] = s;
    while (head < tail) {
        int v = queue[head++];
        for (int e = g->first[v]; e != NONE; e = g->next[e]) {
            int w = g->to[e];
            if (g->room[e ^ against] == 0 || found[w] || e / 2 == skip)
                continue;
            found[w] = 1;
            by[w] = e;
            if (w == t)
                return;
            queue[tail++] = w;
        }
    }
}

/* Moves at most `most` along one shortest path from s to t, and says how much; 0 if there is none. */
static int32_t augment(struct net *g, int s, int t, int skip, int32_t most)
{
    int by[MOST_NODES + 2];
    uint8_t found[MOST_NODES + 2];
    search(g, s, t, 0, skip, by, found);
    if (!found[t])
        return 0;
    for (int v = t; v != s; v = g->to[by[v] ^ 1])
        if (g->room[by[v]] < most)
            most = g->room[by[v]];
    for (int v = t; v != s; v = g->to[by[v] ^ 1]) {
        g->room[by[v]] -= most;
        g->room[by[v] ^ 1] += most;
    }
    return most;
}

/* Enters the plan with every arc at its low; what a node then has too much comes from the source, what it lacks goes to
   the sink. Returns how much leaves the source. */
static int64_t enter(struct net *g, const int32_t *supplies, int nodes)
{
    int32_t excess[MOST_NODES];
    int64_t total = 0;
    g->nodes = nodes + 2;
    g->edges = 0;
    for (int v = 0; v < g->nodes; v++)
        g->first[v] = NONE;
    for (int v = 0; v < nodes; v++)
        excess[v] = supplies[v];
    for (int k = 0; k < g->arcs; k++) {
        const uint32_t *arc = g->list + ARC_ENTRIES * k;
        add_edge(g, (int)arc[FROM], (int)arc[TO], (int32_t)(arc[HIGH] - arc[LOW]));
        excess[arc[FROM]] -= (int32_t)arc[LOW];
        excess[arc[TO]] += (int32_t)arc[LOW];
    }
    for (int v = 0; v < nodes; v++) {
        if (0 < excess[v]) {
            add_edge(g, nodes, v, excess[v]);
            total += excess[v];
        } else if (excess[v] < 0) {
            add_edge(g, v, nodes + 1, -excess[v]);
        }
    }
    return total;
}

/* Brings the net to one of the plan's flows, and returns 0, or as near as it gets, and returns the shortfall. */
static int64_t settle(struct net *g, const uint32_t *list, size_t list_length, const int32_t *supplies, size_t nodes)
{
    int source = (int)nodes, sink = (int)nodes + 1;
    int64_t left;
    g->list = list;
    g->arcs = (int)(list_length / ARC_ENTRIES);
    left = enter(g, supplies, (int)nodes);
    for (int32_t moved = 1; 0 < left && moved != 0; left -= moved)
        moved = augment(g, source, sink, NONE, INT32_MAX);
    /* the supplies stand: nothing may go through the source or the sink any more */
    for (int e = 2 * g->arcs; left == 0 && e < g->edges; e++)
        g->room[e] = 0;
    return left;
}

/* Sends at most `most` round: along edge e, and back on paths that avoid its arc. Returns how much. */
static int32_t send_round(struct net *g, int e, int32_t most)
{
    int start = g->to[e], end = g->to[e ^ 1];
    int32_t left = most;
    while (0 < left) {
        int32_t moved = start == end ? left : augment(g, start, end, e / 2, left);
        if (moved == 0)
            break;
        left -= moved;
        g->room[e] -= moved;
        g->room[e ^ 1] += moved;
    }
    return most - left;
}

static uint32_t count_of(const struct net *g, int k)
{
    return g->list[ARC_ENTRIES * k + LOW] + (uint32_t)g->room[2 * k + 1];
}

static uint32_t least_count(struct net *g, int k)
{
    send_round(g, 2 * k + 1, g->room[2 * k + 1]);
    return count_of(g, k);
}

static uint32_t greatest_count(struct net *g, int k)
{
    send_round(g, 2 * k, g->room[2 * k]);
    return count_of(g, k);
}

static void fix(struct net *g, int k)
{
    g->room[2 * k] = 0;
    g->room[2 * k + 1] = 0;
}

/* Lowers each arc in order as far as it goes, and fixes it. */
static void first_flow(struct net *g, uint32_t *counts)
{
    for (int k = 0; k < g->arcs; k++) {
        counts[k] = least_count(g, k);
        fix(g, k);
    }
}

/* Cites the bounds in the sum of the marked set: 2 for a high that is not the widest, 1 for a low above 0. In the sum
   for a high end, highs are of arcs that enter and lows of arcs that leave; in all others the other way round. */
static void cite(const struct net *g, const uint8_t *in, int high_end, int except, uint32_t *marks)
{
    for (int k = 0; k < g->arcs; k++) {
        const uint32_t *arc = g->list + ARC_ENTRIES * k;
        int leaves = in[arc[FROM]] && !in[arc[TO]], enters = !in[arc[FROM]] && in[arc[TO]];
        int high = high_end ? enters : leaves, low = high_end ? leaves : enters;
        high = high && arc[HIGH] != BLENROP_WIDEST_HIGH;
        low = low && arc[LOW] != 0;
        marks[k] = k == except ? 0 : high ? 2 : low ? 1 : 0;
    }
}

static void copy(uint8_t *to, const uint8_t *from, size_t length)
{
    for (size_t i = 0; i < length; i++)
        to[i] = from[i];
}

static struct blenrop_answer answer(uint32_t number, uint32_t index, int64_t value)
{
    struct blenrop_answer a = {number, index, value};
    return a;
}

static struct blenrop_answer flow(const uint32_t *arcs, size_t arcs_length,
                                  const int32_t *supplies, size_t supplies_length,
                                  uint32_t *arc_buffer, size_t arc_buffer_length,
                                  uint8_t *node_buffer, size_t node_buffer_length)
{
    struct net g;
    int by[MOST_NODES + 2];
    uint8_t found[MOST_NODES + 2];
    int64_t shortfall = settle(&g, arcs, arcs_length, supplies, supplies_length);
    (void)arc_buffer_length, (void)node_buffer_length;
    if (shortfall == 0) {
        first_flow(&g, arc_buffer);
        return answer(BLENROP_DONE, 0, 0);
    }
    /* what the source still reaches is the least set of greatest shortfall */
    search(&g, (int)supplies_length, NONE, 0, NONE, by, found);
    copy(node_buffer, found, supplies_length);
    cite(&g, found, 0, NONE, arc_buffer);
    return answer(BLENROP_NO_FLOW, 0, shortfall);
}

static struct blenrop_answer narrow(const uint32_t *arcs, size_t arcs_length,
                                    const int32_t *supplies, size_t supplies_length,
                                    uint32_t *lows, size_t lows_length,
                                    uint32_t *highs, size_t highs_length)
{
    struct net g;
    int64_t shortfall = settle(&g, arcs, arcs_length, supplies, supplies_length);
    (void)lows_length, (void)highs_length;
    if (0 < shortfall)
        return answer(BLENROP_NO_FLOW, 0, shortfall);
    for (int k = 0; k < g.arcs; k++) {
        lows[k] = least_count(&g, k);
        highs[k] = greatest_count(&g, k);
    }
    return answer(BLENROP_DONE, 0, 0);
}

/* With the arc's count at the asked end, no path leads round it any more. For a low end, what is still found from the
   arc's start is the least set that the end stands on; for a high end, what still finds the start. */
static struct blenrop_answer reason(const uint32_t *arcs, size_t arcs_length,
                                    const int32_t *supplies, size_t supplies_length,
                                    uint32_t arc, uint32_t end,
                                    uint32_t *arc_buffer, size_t arc_buffer_length,
                                    uint8_t *node_buffer, size_t node_buffer_length)
{
    struct net g;
    int by[MOST_NODES + 2], k = (int)arc, high_end = (int)end;
    uint8_t found[MOST_NODES + 2];
    uint32_t count;
    int64_t shortfall = settle(&g, arcs, arcs_length, supplies, supplies_length);
    (void)arc_buffer_length, (void)node_buffer_length;
    if (0 < shortfall)
        return answer(BLENROP_NO_FLOW, 0, shortfall);
    count = high_end ? greatest_count(&g, k) : least_count(&g, k);
    if (count == arcs[ARC_ENTRIES * k + (high_end ? HIGH : LOW)])
        return answer(BLENROP_DONE, 0, 0);
    search(&g, (int)arcs[ARC_ENTRIES * k + FROM], NONE, high_end, k, by, found);
    copy(node_buffer, found, supplies_length);
    cite(&g, found, high_end, k, arc_buffer);
    return answer(BLENROP_DONE, 1, count);
}

static struct blenrop_answer held(const uint32_t *arcs, size_t arcs_length,
                                  const int32_t *supplies, size_t supplies_length,
                                  uint32_t arc, uint32_t count,
                                  uint32_t *arc_buffer, size_t arc_buffer_length)
{
    struct net g;
    int k = (int)arc;
    int64_t apart, shortfall = settle(&g, arcs, arcs_length, supplies, supplies_length);
    (void)arc_buffer_length;
    if (0 < shortfall)
        return answer(BLENROP_NO_FLOW, 0, shortfall);
    if (count < arcs[ARC_ENTRIES * k + LOW] || arcs[ARC_ENTRIES * k + HIGH] < count)
        return answer(BLENROP_OUTSIDE_RANGE, 0, 0);
    apart = (int64_t)count - count_of(&g, k);
    send_round(&g, apart < 0 ? 2 * k + 1 : 2 * k, (int32_t)(apart < 0 ? -apart : apart));
    if (count_of(&g, k) != count)
        return answer(BLENROP_OUTSIDE_RANGE, 0, 0);
    fix(&g, k);
    first_flow(&g, arc_buffer);
    arc_buffer[k] = count;
    return answer(BLENROP_DONE, 0, 0);
}

const struct unit textbook = {
    .flow = flow,
    .narrow = narrow,
    .reason = reason,
    .held = held,
    .count_network = textbook_count_network,
    .file_read = textbook_file_read,
    .file_write = textbook_file_write,
    .file_payload = textbook_file_payload,
};
