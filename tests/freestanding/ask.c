/* A program without a C library: it has its own memcpy, memset and memmove and its own start, and asks the unit about
 * worked plans. Exit status 0: every answer is as document 01 works it by hand. Else the number of the first line of
 * asked() that is not. */
#include "blenrop.h"

#define LENGTH(list) (sizeof(list) / sizeof *(list))

/* The structs are laid out as the archive has them: a negative length here does not compile. */
typedef char arc_is_16_bytes[sizeof(struct blenrop_arc) == 16 ? 1 : -1];
typedef char answer_is_16_bytes[sizeof(struct blenrop_answer) == 16 ? 1 : -1];
typedef char index_is_at_4[offsetof(struct blenrop_answer, index) == 4 ? 1 : -1];
typedef char value_is_at_8[offsetof(struct blenrop_answer, value) == 8 ? 1 : -1];

void *memcpy(void *to, const void *from, size_t n) {
    unsigned char *t = to;
    const unsigned char *f = from;
    while (n--) *t++ = *f++;
    return to;
}

void *memset(void *to, int byte, size_t n) {
    unsigned char *t = to;
    while (n--) *t++ = (unsigned char)byte;
    return to;
}

void *memmove(void *to, const void *from, size_t n) {
    unsigned char *t = to;
    const unsigned char *f = from;
    if (t < f) return memcpy(to, from, n);
    while (n--) t[n] = f[n];
    return to;
}

static int is(struct blenrop_answer a, uint32_t number, uint32_t index, int64_t value) {
    return a.number == number && a.index == index && a.value == value;
}

static int counts(const uint32_t *a, uint32_t x, uint32_t y, uint32_t z) { return a[0] == x && a[1] == y && a[2] == z; }

static int marks(const uint8_t *a, uint8_t x, uint8_t y, uint8_t z) { return a[0] == x && a[1] == y && a[2] == z; }

/* P1: supplies 5, 0, -5; arcs 0-1 0..4, 0-2 0..3, 1-2 0..9. P6: supplies 1, -1, no arcs. */
static const int32_t p1_supplies[] = {5, 0, -5};
static const uint32_t p1_arcs[] = {0, 1, 0, 4, 0, 2, 0, 3, 1, 2, 0, 9};
static const struct blenrop_arc p1_structs[] = {{0, 1, 0, 4}, {0, 2, 0, 3}, {1, 2, 0, 9}};
static const int32_t p6_supplies[] = {1, -1};

/* P12: one variable with an empty domain, one value with count range 0..1. P13: one node, supply 0, no arcs. */
static const uint64_t p12_domains[] = {0};
static const uint32_t p12_counts[] = {0, 1};
static const int32_t p13_supplies[] = {0};

#define P1 p1_arcs, LENGTH(p1_arcs), p1_supplies, LENGTH(p1_supplies)
#define P1_STRUCTS p1_structs, LENGTH(p1_structs), p1_supplies, LENGTH(p1_supplies)

#define P12 p12_domains, LENGTH(p12_domains), p12_counts, LENGTH(p12_counts)
#define P13 NULL, 0, p13_supplies, LENGTH(p13_supplies)

/* The second half of asked(). */
static int asked_more(void) {
    uint32_t a[8] = {7, 7, 7, 7, 7, 7, 7, 7};
    uint64_t d[1] = {7};
    int32_t s[3] = {7, 7, 7};
    uint8_t file[513] = {0};
    file[512] = 7;
    if (!is(blenrop_count(P12, d, 1, a, 1, a + 1, 1), 9, 0, 1) || d[0] != 7 || !counts(a, 7, 7, 7)) return 12;
    if (!is(blenrop_count_network(P12, s, 3, a, 8), 0, 0, 0) || s[0] != 1 || s[1] != 0 || s[2] != -1) return 13;
    if (!counts(a, 0, 1, 0) || !counts(a + 3, 0, 1, 2) || !counts(a + 5, 2, 0, 1)) return 14;
    if (!is(blenrop_file_write(P13, file, 513), 0, 0, 512) || !marks(file + 510, 4, 0, 7)) return 15;
    if (!is(blenrop_file_read(file, 512, s, 3, NULL, 0), 0, 1, 0) || s[0] != 0 || s[1] != 0 || s[2] != -1) return 16;
    if (!is(blenrop_file_payload(file, 512, 0), 0, 6, 504)) return 17;
    if (!is(blenrop_file_payload(file, 512, 1), 8, 0, 0)) return 18;
    if (!is(blenrop_file_read(file, 513, s, 3, NULL, 0), 11, 0, 0)) return 19;
    return 0;
}

static int asked(void) {
    uint32_t a[3] = {7, 7, 7}, b[3] = {7, 7, 7};
    uint8_t v[3] = {7, 7, 7};
    if (!is(blenrop_flow(P1, a, 3, v, 3), 0, 0, 0) || !counts(a, 2, 3, 2) || !marks(v, 7, 7, 7)) return 1;
    if (!is(blenrop_narrow(P1, a, 3, b, 3), 0, 0, 0) || !counts(a, 2, 1, 2) || !counts(b, 4, 3, 4)) return 2;
    if (!is(blenrop_reason(P1, 2, 0, a, 3, v, 3), 0, 1, 2) || !counts(a, 0, 2, 0) || !marks(v, 1, 1, 0)) return 3;
    if (!is(blenrop_held(P1, 1, 2, a, 3), 0, 0, 0) || !counts(a, 3, 2, 3)) return 4;
    if (!is(blenrop_held(P1, 1, 4, a, 3), 10, 0, 0) || !counts(a, 3, 2, 3)) return 5;
    if (!is(blenrop_flow(P1, a, 2, v, 3), 3, 0, 0)) return 6;
    if (!is(blenrop_flow_arcs(P1_STRUCTS, a, 3, v, 3), 0, 0, 0) || !counts(a, 2, 3, 2)) return 7;
    if (!is(blenrop_narrow_arcs(P1_STRUCTS, a, 3, b, 3), 0, 0, 0) || !counts(a, 2, 1, 2) || !counts(b, 4, 3, 4)) return 8;
    /* slices of length 0 by null pointers */
    if (!is(blenrop_flow(NULL, 0, p6_supplies, 2, NULL, 0, v, 3), 9, 0, 1) || !marks(v, 1, 0, 0)) return 9;
    if (!is(blenrop_flow(NULL, 0, NULL, 0, NULL, 0, NULL, 0), 1, 0, 0)) return 10;
    if (!is(blenrop_flow_arcs(NULL, 0, p6_supplies, 2, NULL, 0, v, 3), 9, 0, 1) || !marks(v, 1, 0, 0)) return 11;
    return asked_more();
}

/* Linux on x86-64: the system call 60 ends the process. */
static void leave(int status) {
    __asm__ volatile("syscall" : : "a"(60L), "D"((long)status) : "rcx", "r11", "memory");
    for (;;) {}
}

void begin(void) { leave(asked()); }

/* The process starts with an aligned stack and no return address: a call gives `begin` the stack that it expects. */
__asm__(".globl _start\n_start: xor %ebp, %ebp\n call begin\n");
