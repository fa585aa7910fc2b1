/* The network of a counting plan, as document 01 draws it: variables, values, one last node; an arc for each pair, then
   one for each value. Only well-formed plans are asked about, and the buffers are long enough. */
#include "unit.h"

static uint32_t *put_arc(uint32_t *at, size_t from, size_t to, uint32_t low, uint32_t high)
{
    at[0] = (uint32_t)from;
    at[1] = (uint32_t)to;
    at[2] = low;
    at[3] = high;
    return at + 4;
}

struct blenrop_answer textbook_count_network(const uint64_t *domains, size_t domains_length,
                                             const uint32_t *counts, size_t counts_length,
                                             int32_t *supplies, size_t supplies_length,
                                             uint32_t *arcs, size_t arcs_length)
{
    struct blenrop_answer done = {BLENROP_DONE, 0, 0};
    size_t variables = domains_length, values = counts_length / 2;
    (void)supplies_length, (void)arcs_length;
    for (size_t i = 0; i < variables; i++)
        for (size_t j = 0; j < values; j++)
            arcs = put_arc(arcs, i, variables + j, 0, (uint32_t)(domains[i] >> j & 1));
    for (size_t j = 0; j < values; j++)
        put_arc(arcs + 4 * j, variables + j, variables + values, counts[2 * j], counts[2 * j + 1]);
    for (size_t i = 0; i < variables + values; i++)
        supplies[i] = i < variables ? 1 : 0;
    supplies[variables + values] = -(int32_t)variables;
    return done;
}
