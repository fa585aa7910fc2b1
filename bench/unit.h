/* What is asked: the entries of an archive, or of the textbook program. An entry that is not there is null. */
#ifndef BENCH_UNIT_H
#define BENCH_UNIT_H

#include "../include/blenrop.h"

enum { MOST_NODES = BLENROP_MOST_NODES, MOST_ARCS = BLENROP_MOST_ARCS, MOST_FILE = BLENROP_LONGEST_FILE };

#define EVERY_ENTRY(DO) \
    DO(flow) DO(narrow) DO(reason) DO(held) DO(flow_arcs) DO(narrow_arcs) \
    DO(count) DO(count_network) DO(file_read) DO(file_write) DO(file_payload)

struct unit {
#define POINTER(name) __typeof__(blenrop_##name) *name;
    EVERY_ENTRY(POINTER)
#undef POINTER
};

/* Its entries are those of textbook.c, files.c and counting.c; it has none of its own over arc structs, nor `count`. */
extern const struct unit textbook;

__typeof__(blenrop_count_network) textbook_count_network;
__typeof__(blenrop_file_read) textbook_file_read;
__typeof__(blenrop_file_write) textbook_file_write;
__typeof__(blenrop_file_payload) textbook_file_payload;

#endif
