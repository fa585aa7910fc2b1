/* Plan files written and read as a C program does it: entry by entry, low byte first. It looks for 4 to 7 and, when
   reading, for 12 to 14, and gives the number alone; lengths and counts are taken to be right. */
#include "unit.h"

#include <string.h>

enum {
    BLOCK = 512, HEAD = 1, ARCS = 2, PAYLOAD_AT = 6, CHECK_AT = 510, MODULUS = 65521,
    SUPPLY_BYTES = 4, ARC_BYTES = 6, ARCS_IN_BLOCK = 84
};

static void put(uint8_t *at, int bytes, uint32_t number)
{
    for (int i = 0; i < bytes; i++)
        at[i] = (uint8_t)(number >> 8 * i);
}

static uint32_t get(const uint8_t *at, int bytes)
{
    uint32_t number = 0;
    for (int i = 0; i < bytes; i++)
        number |= (uint32_t)at[i] << 8 * i;
    return number;
}

static uint32_t check_of(const uint8_t *block)
{
    uint32_t sum = 0;
    for (uint32_t i = 0; i < CHECK_AT; i++)
        sum += (i + 1) * block[i];
    return sum % MODULUS;
}

/* 4 to 7, or 0. */
static uint32_t beyond_limits(const uint32_t *list, size_t arcs, const int32_t *supplies, size_t nodes)
{
    int64_t sum = 0;
    for (size_t k = 0; k < arcs; k++)
        if (nodes <= list[4 * k] || nodes <= list[4 * k + 1])
            return BLENROP_ARC_END;
    for (size_t k = 0; k < arcs; k++)
        if (list[4 * k + 3] < list[4 * k + 2] || BLENROP_WIDEST_HIGH < list[4 * k + 3])
            return BLENROP_ARC_RANGE;
    for (size_t v = 0; v < nodes; v++) {
        if (supplies[v] < -BLENROP_MOST_SUPPLY || BLENROP_MOST_SUPPLY < supplies[v])
            return BLENROP_SUPPLY;
        sum += supplies[v];
    }
    return sum == 0 ? BLENROP_DONE : BLENROP_SUPPLY_SUM;
}

struct blenrop_answer textbook_file_write(const uint32_t *arcs, size_t arcs_length,
                                          const int32_t *supplies, size_t supplies_length,
                                          uint8_t *file, size_t file_length)
{
    struct blenrop_answer answer = {0, 0, 0};
    size_t m = arcs_length / 4, blocks = 1 + (m + ARCS_IN_BLOCK - 1) / ARCS_IN_BLOCK;
    (void)file_length;
    answer.number = beyond_limits(arcs, m, supplies, supplies_length);
    if (answer.number != BLENROP_DONE)
        return answer;
    memset(file, 0, blocks * BLOCK);
    file[0] = HEAD;
    put(file + 2, 2, (uint32_t)supplies_length);
    put(file + 4, 2, (uint32_t)m);
    for (size_t v = 0; v < supplies_length; v++)
        put(file + PAYLOAD_AT + SUPPLY_BYTES * v, SUPPLY_BYTES, (uint32_t)supplies[v]);
    for (size_t k = 0; k < m; k++) {
        uint8_t *block = file + BLOCK * (1 + k / ARCS_IN_BLOCK);
        uint8_t *at = block + PAYLOAD_AT + ARC_BYTES * (k % ARCS_IN_BLOCK);
        block[0] = ARCS;
        block[1] = (uint8_t)(1 + k / ARCS_IN_BLOCK);
        put(block + 2, 2, (uint32_t)(1 + k % ARCS_IN_BLOCK));
        at[0] = (uint8_t)arcs[4 * k];
        at[1] = (uint8_t)arcs[4 * k + 1];
        put(at + 2, 2, arcs[4 * k + 2]);
        put(at + 4, 2, arcs[4 * k + 3]);
    }
    for (size_t b = 0; b < blocks; b++)
        put(file + BLOCK * b + CHECK_AT, 2, check_of(file + BLOCK * b));
    answer.value = (int64_t)(blocks * BLOCK);
    return answer;
}

static int all_zero(const uint8_t *from, const uint8_t *to)
{
    while (from < to)
        if (*from++ != 0)
            return 0;
    return 1;
}

/* 12, 13 or 14, or 0: what the blocks say of themselves. */
static uint32_t damaged(const uint8_t *file, size_t blocks, size_t nodes, size_t arcs)
{
    for (size_t b = 0; b < blocks; b++)
        if (get(file + BLOCK * b + CHECK_AT, 2) != check_of(file + BLOCK * b))
            return BLENROP_FILE_CHECK;
    for (size_t b = 0; b < blocks; b++)
        if (file[BLOCK * b] != (b == 0 ? HEAD : ARCS) || file[BLOCK * b + 1] != b)
            return BLENROP_FILE_LABEL;
    if (MOST_NODES < nodes || blocks != 1 + (arcs + ARCS_IN_BLOCK - 1) / ARCS_IN_BLOCK
        || !all_zero(file + PAYLOAD_AT + SUPPLY_BYTES * nodes, file + CHECK_AT))
        return BLENROP_FILE_CONTENT;
    for (size_t b = 1; b < blocks; b++) {
        const uint8_t *block = file + BLOCK * b;
        size_t held = b + 1 < blocks ? ARCS_IN_BLOCK : arcs - ARCS_IN_BLOCK * (blocks - 2);
        if (get(block + 2, 2) != held || get(block + 4, 2) != 0
            || !all_zero(block + PAYLOAD_AT + ARC_BYTES * held, block + CHECK_AT))
            return BLENROP_FILE_CONTENT;
    }
    return BLENROP_DONE;
}

struct blenrop_answer textbook_file_read(const uint8_t *file, size_t file_length,
                                         int32_t *supplies, size_t supplies_length,
                                         uint32_t *arcs, size_t arcs_length)
{
    size_t nodes = get(file + 2, 2), m = get(file + 4, 2);
    struct blenrop_answer answer = {damaged(file, file_length / BLOCK, nodes, m), 0, 0};
    (void)supplies_length, (void)arcs_length;
    if (answer.number != BLENROP_DONE)
        return answer;
    for (size_t v = 0; v < nodes; v++)
        supplies[v] = (int32_t)get(file + PAYLOAD_AT + SUPPLY_BYTES * v, SUPPLY_BYTES);
    for (size_t k = 0; k < m; k++) {
        const uint8_t *at = file + BLOCK * (1 + k / ARCS_IN_BLOCK) + PAYLOAD_AT + ARC_BYTES * (k % ARCS_IN_BLOCK);
        arcs[4 * k] = at[0];
        arcs[4 * k + 1] = at[1];
        arcs[4 * k + 2] = get(at + 2, 2);
        arcs[4 * k + 3] = get(at + 4, 2);
    }
    answer.number = beyond_limits(arcs, m, supplies, nodes);
    answer.index = (uint32_t)nodes;
    answer.value = (int64_t)m;
    return answer;
}

/* Where the payload of a block of an accepted file is: all of the file is read first. */
struct blenrop_answer textbook_file_payload(const uint8_t *file, size_t file_length, uint32_t block)
{
    int32_t supplies[MOST_NODES];
    uint32_t arcs[4 * MOST_ARCS];
    struct blenrop_answer answer = textbook_file_read(file, file_length, supplies, MOST_NODES, arcs, 4 * MOST_ARCS);
    answer.index = block * BLOCK + PAYLOAD_AT;
    answer.value = CHECK_AT - PAYLOAD_AT;
    return answer;
}
