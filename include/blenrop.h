/* The flow unit as C and C++ call it. Link with libunit.a, which needs memcpy, memset and memmove and nothing else.
 *
 * Plans. `supplies` has an entry for each node: n = supplies_length. `arcs` has four for each arc, from, to, low and
 * high: m = arcs_length / 4, rounded down; one to three entries more are not read. Arc k leads from from(k) to to(k).
 *
 * Flows. A flow gives each arc k a whole number f(k) such that
 *     low(k) <= f(k) <= high(k)                                                 for every arc k,
 *     sum of f(k), from(k) = v  -  sum of f(k), to(k) = v  =  supply(v)         for every node v.
 * The first flow is the one whose counts, read in arc order, come first in dictionary order.
 *
 * Sets. Arc k leaves a set S of nodes if from(k) is in S and to(k) is not, and enters S if to(k) is in S and from(k) is
 * not. A self-loop does neither.
 *     shortfall(S) = sum of supply(v), v in S  -  sum of high(k), k leaving S  +  sum of low(k), k entering S
 *
 * Marks. Node buffers: 1 for a node in the set, 0 for one outside. Arc buffers: 2 if the arc's high is cited, 1 if its
 * low is, else 0. A high of 65,535 and a low of 0 are never cited.
 *
 * Counting plans. `domains` has a word for each variable: v = domains_length. `counts` has two entries for each value,
 * low and high: w = counts_length / 2, rounded down; one entry more is not read. Value j is in the domain of variable i
 * if bit j of domains[i] is 1. An assignment gives each variable i a value a(i) such that
 *     a(i) < w, and a(i) is in the domain of i                                  for every variable i,
 *     low(j) <= uses(j) <= high(j), uses(j) = the number of i with a(i) = j     for every value j.
 * Its network has n = v + w + 1 nodes and m = w * (v + 1) arcs. Variable i is node i with supply 1, value j node v + j
 * with supply 0, and the last node has supply -v. Arc i * w + j runs from variable i to value j, with range 0..1 if j is
 * in the domain of i, else 0..0; arc v * w + j runs from value j to the last node, with the range of j.
 *
 * Plan files. A file is blocks of 512 bytes; numbers stand low byte first. Byte 0 of a block is its kind, 1 for block 0
 * and 2 for the others; byte 1 is the block's number, from 0. Bytes 510 and 511 are its check: the sum of
 * (i + 1) * byte i, i from 0 to 509, modulo 65,521. Between them stand
 *     in block 0: n in bytes 2 and 3, m in bytes 4 and 5, from byte 6 the supplies, four bytes each, two's complement;
 *     in another: how many arcs it has in bytes 2 and 3, from byte 6 its arcs, six bytes each: from and to, one
 *         byte each, then low and high, two bytes each. A block has 84 arcs, and only the last may have fewer.
 * Every other byte is 0. A network has exactly one file, and an accepted file is the file of its network.
 *
 * Slices. A slice is a pointer and a length in entries; with length 0 the pointer may be null. What is lent for writing
 * overlaps nothing else that is lent to the call. Nothing is read or written outside the slices and the call's stack,
 * and nothing is kept after the call. Entries of a buffer past what a request says it writes are never written; a buffer
 * of exactly n entries for nodes, m for arcs, 4 * m for a flat list of arcs, v for variables or w for values is enough.
 * Every input within these lines gets its answer or its number.
 */
#ifndef BLENROP_H
#define BLENROP_H

#include <stddef.h>
#include <stdint.h>

#ifdef __cplusplus
extern "C" {
#endif

/* The limits of a plan. */
#define BLENROP_MOST_NODES 64
#define BLENROP_MOST_ARCS 512
#define BLENROP_MOST_SUPPLY 1000000
#define BLENROP_WIDEST_HIGH 65535

/* The longest file, in bytes. */
#define BLENROP_LONGEST_FILE 4096

/* What `number` says. The number given is the first that applies: for a network in the order 1 to 10, for a counting plan
 * 15, 16, 17, 18, 3, 9, for reading a file 11, 12, 13, 1, 2, 14, 3, 4, 5, 6, 7. */
enum {
    BLENROP_DONE = 0,           /* what was asked for is in the buffers and the answer */
    BLENROP_NODES = 1,          /* n is 0 or above 64 */
    BLENROP_ARCS = 2,           /* m is above 512 */
    BLENROP_BUFFER = 3,         /* a lent buffer is too short for what the request may write */
    BLENROP_ARC_END = 4,        /* from(k) or to(k) is not below n; index: the lowest such k */
    BLENROP_ARC_RANGE = 5,      /* low(k) > high(k), or high(k) > 65,535; index: the lowest such k */
    BLENROP_SUPPLY = 6,         /* supply(v) is below -1,000,000 or above 1,000,000; index: the lowest such v */
    BLENROP_SUPPLY_SUM = 7,     /* the supplies do not add up to 0 */
    BLENROP_MISSING = 8,        /* there is no such arc, end or block */
    BLENROP_NO_FLOW = 9,        /* there is no flow, or no assignment; value: the greatest shortfall over all sets of the
                                   network, which is above 0 */
    BLENROP_OUTSIDE_RANGE = 10, /* there are flows, but none has the count asked for on the arc */
    BLENROP_FILE_LENGTH = 11,   /* file_length is 0, above 4,096, or not a multiple of 512 */
    BLENROP_FILE_CHECK = 12,    /* a block's check is wrong; index: the lowest such block */
    BLENROP_FILE_LABEL = 13,    /* a block's kind or number is wrong; index: the lowest such block */
    BLENROP_FILE_CONTENT = 14,  /* the number of blocks is wrong; or a block says a wrong number of arcs, or has a byte that
                                   must be 0 and is not, index: the lowest such block */
    BLENROP_COUNT_NODES = 15,   /* v + w + 1 is above 64 */
    BLENROP_COUNT_DOMAIN = 16,  /* a value in the domain of i is not below w; index: the lowest such i */
    BLENROP_COUNT_ARCS = 17,    /* w * (v + 1) is above 512 */
    BLENROP_COUNT_RANGE = 18    /* low(j) > high(j), or high(j) > 65,535; index: the lowest such j */
};

/* An answer. Where the lines above and below say nothing of index or value, it is 0. */
struct blenrop_answer {
    uint32_t number;
    uint32_t index;
    int64_t value;
};

/* ---- Requests over a flat list of arcs */

/* Is there a flow? Numbers 0 to 7 and 9.
 * 0: arc_buffer[k] = f(k) for the first flow f; node_buffer stays.
 * 9: node_buffer marks the shortage set, which has the greatest shortfall and lies in every other set that has it;
 *    arc_buffer cites the highs of arcs leaving it and the lows of arcs entering it.
 * Any other number: both buffers stay. */
struct blenrop_answer blenrop_flow(const uint32_t *arcs, size_t arcs_length,
                                   const int32_t *supplies, size_t supplies_length,
                                   uint32_t *arc_buffer, size_t arc_buffer_length,
                                   uint8_t *node_buffer, size_t node_buffer_length);

/* How few and how many can each arc have? Numbers 0 to 7 and 9.
 * 0: lows[k] = min f(k) and highs[k] = max f(k), over all flows f. Every count between the two is f(k) for some flow f.
 * Any other number: both buffers stay. */
struct blenrop_answer blenrop_narrow(const uint32_t *arcs, size_t arcs_length,
                                     const int32_t *supplies, size_t supplies_length,
                                     uint32_t *lows, size_t lows_length,
                                     uint32_t *highs, size_t highs_length);

/* Why does an end of an arc's narrowed range lie where it does? end is 0 for the low end, 1 for the high end. Numbers 0
 * to 9; 8 if arc is not below m or end is above 1. With a flow, over the sets S that the arc leaves,
 *     forced(S)  = sum of supply(v), v in S  -  sum of high(k), k leaving S, not arc  +  sum of low(k), k entering S
 *     allowed(S) = sum of supply(v), v in S  +  sum of high(k), k entering S  -  sum of low(k), k leaving S, not arc
 *     min f(arc) = max(low(arc), max forced(S))            max f(arc) = min(high(arc), min allowed(S))
 * A self-loop leaves no set, and both its ends stand.
 * 0, index 0: the end stands at the arc's own low or high; both buffers stay.
 * 0, index 1: the end moved to value, which is forced(S) or allowed(S) of the set S that node_buffer marks. S lies in
 *    every other set with that sum. arc_buffer cites the bounds in the sum.
 * Any other number: both buffers stay. */
struct blenrop_answer blenrop_reason(const uint32_t *arcs, size_t arcs_length,
                                     const int32_t *supplies, size_t supplies_length,
                                     uint32_t arc, uint32_t end,
                                     uint32_t *arc_buffer, size_t arc_buffer_length,
                                     uint8_t *node_buffer, size_t node_buffer_length);

/* Is there a flow f with f(arc) = count? Numbers 0 to 10; 8 if arc is not below m. count is any number.
 * 0: arc_buffer[k] = f(k) for the first such flow.
 * Any other number: the buffer stays. */
struct blenrop_answer blenrop_held(const uint32_t *arcs, size_t arcs_length,
                                   const int32_t *supplies, size_t supplies_length,
                                   uint32_t arc, uint32_t count,
                                   uint32_t *arc_buffer, size_t arc_buffer_length);

/* ---- Requests over a list of arc structs. m = arcs_length; all else is as for the flat list of the same numbers */

/* An arc: four entries of a flat list, in the list's order. */
struct blenrop_arc {
    uint32_t from, to, low, high;
};

/* blenrop_flow over arc structs. */
struct blenrop_answer blenrop_flow_arcs(const struct blenrop_arc *arcs, size_t arcs_length,
                                        const int32_t *supplies, size_t supplies_length,
                                        uint32_t *arc_buffer, size_t arc_buffer_length,
                                        uint8_t *node_buffer, size_t node_buffer_length);

/* blenrop_narrow over arc structs. */
struct blenrop_answer blenrop_narrow_arcs(const struct blenrop_arc *arcs, size_t arcs_length,
                                          const int32_t *supplies, size_t supplies_length,
                                          uint32_t *lows, size_t lows_length,
                                          uint32_t *highs, size_t highs_length);

/* ---- Requests over a counting plan */

/* What can still occur? Numbers 0, 3, 9 and 15 to 18; 3 if new_domains has fewer than v entries, or new_lows or new_highs
 * fewer than w.
 * 0: bit j of new_domains[i] is 1 exactly if a(i) = j for some assignment a; new_lows[j] = min uses(j) and
 *    new_highs[j] = max uses(j), over all assignments.
 * Any other number: all three buffers stay. */
struct blenrop_answer blenrop_count(const uint64_t *domains, size_t domains_length,
                                    const uint32_t *counts, size_t counts_length,
                                    uint64_t *new_domains, size_t new_domains_length,
                                    uint32_t *new_lows, size_t new_lows_length,
                                    uint32_t *new_highs, size_t new_highs_length);

/* Which network is it? It can be asked every question above. Its flows are the assignments: f(i * w + j) = 1 if a(i) = j,
 * else 0, and f(v * w + j) = uses(j). Numbers 0, 3 and 15 to 18; 3 if supplies has fewer than n entries, or arcs fewer
 * than 4 * m.
 * 0: supplies has the n supplies of the network, and arcs its m arcs.
 * Any other number: both buffers stay. */
struct blenrop_answer blenrop_count_network(const uint64_t *domains, size_t domains_length,
                                            const uint32_t *counts, size_t counts_length,
                                            int32_t *supplies, size_t supplies_length,
                                            uint32_t *arcs, size_t arcs_length);

/* ---- Requests over a plan file */

/* Which network's file is it? Numbers 0 to 7 and 11 to 14; 3 if supplies has fewer than n entries, or arcs fewer than
 * 4 * m.
 * 0: index = n and value = m; supplies has the n supplies of the network, and arcs its m arcs.
 * Any other number: both buffers stay. */
struct blenrop_answer blenrop_file_read(const uint8_t *file, size_t file_length,
                                        int32_t *supplies, size_t supplies_length,
                                        uint32_t *arcs, size_t arcs_length);

/* What is the network's file? Numbers 0 to 7; 3 if file is shorter than it.
 * 0: value = 512 * (1 + m / 84, rounded up), and the first value bytes are the network's file.
 * Any other number: the buffer stays. */
struct blenrop_answer blenrop_file_write(const uint32_t *arcs, size_t arcs_length,
                                         const int32_t *supplies, size_t supplies_length,
                                         uint8_t *file, size_t file_length);

/* Where is the payload of a block, its bytes 6 to 509? Numbers 0 to 2, 4 to 8 and 11 to 14: that of reading the file into
 * long enough buffers, then 8 if the file has no such block.
 * 0: index = 512 * block + 6 and value = 504; the payload is the value bytes from file[index] on.
 * Any other number: index and value are 0. */
struct blenrop_answer blenrop_file_payload(const uint8_t *file, size_t file_length, uint32_t block);

#ifdef __cplusplus
}
#endif

#endif
