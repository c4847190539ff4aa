#include "plain.h"
#include <string.h>

enum { MOST_INPUTS = 1024, MOST_GATES = 4096, HEAD = 23, RECORD = 5 };

/* ---- the refusals */

static int in_range(struct params p) {
    return 2 <= p.n && p.n <= 1024 && 16 <= p.q && p.q <= 1048576 && p.q % 2 == 0 && 1 <= p.l && p.l <= 4096 && 4 * (uint64_t)p.e < p.q &&
           p.f <= 65535;
}

static int counts_in_range(struct circuit c) { return 1 <= c.inputs && c.inputs <= MOST_INPUTS && 1 <= c.gates && c.gates <= MOST_GATES; }

static int fits(uint32_t q, uint64_t bound) { return 4 * bound < q; }

static int all_fit(uint32_t q, const uint32_t *bounds, uint64_t count) {
    for (uint64_t w = 0; w < count; w++)
        if (!fits(q, bounds[w])) return 0;
    return 1;
}

/* A known kind, operands below the gate's own wire, NOT's right 0. */
static int all_right(struct circuit c) {
    for (uint64_t g = 0; g < c.gates; g++) {
        const uint64_t own = c.inputs + g;
        if (c.kinds[g] > NOT || c.lefts[g] >= own) return 0;
        if (c.kinds[g] == NOT ? c.rights[g] != 0 : c.rights[g] >= own) return 0;
    }
    return 1;
}

/* ---- planning */

static uint64_t gate_bound(struct params p, uint32_t kind, uint64_t b1, uint64_t b2) {
    const uint64_t n = p.n, q = p.q, l = p.l;
    if (kind == XOR) return b1 + b2;
    if (kind == NOT) return b1;
    return (2 * q * l * (b1 + b2) + 4 * b1 * b2 + q * l * l) / (2 * q) + (n * n * p.f + l) / 2;
}

/* The bound of each gate's wire, after those of the inputs: 0, or 10 where one does not fit. */
static uint32_t settle(struct params p, struct circuit c, uint32_t *table) {
    for (uint64_t g = 0; g < c.gates; g++) {
        const uint64_t bound = gate_bound(p, c.kinds[g], table[c.lefts[g]], table[c.rights[g]]);
        if (!fits(p.q, bound)) return 10;
        table[c.inputs + g] = (uint32_t)bound;
    }
    return 0;
}

uint32_t plain_plan(struct params p, struct circuit c, uint32_t *bounds, uint64_t bounds_len) {
    uint32_t table[MOST_INPUTS + MOST_GATES];
    if (!in_range(p)) return 1;
    if (!counts_in_range(c)) return 2;
    if (bounds_len != c.inputs + c.gates) return 3;
    if (!all_fit(p.q, bounds, c.inputs)) return 8;
    if (!all_right(c)) return 9;
    memcpy(table, bounds, c.inputs * sizeof *table);
    const uint32_t number = settle(p, c, table);
    if (number == 0) memcpy(bounds + c.inputs, table + c.inputs, c.gates * sizeof *table);
    return number;
}

/* ---- the gates */

static void work_not(int64_t q, uint64_t n, const int64_t *c, int64_t *out) {
    memcpy(out, c, n * sizeof *out);
    out[0] = centred(c[0] + q / 2, q);
}

static void work_and(const struct arithmetic *with, int64_t q, uint64_t n, const int64_t *c, const int64_t *d, struct buffers b, int64_t *out) {
    with->tensor(q, c, d, b.scratch, n);
    with->change(q, b.scratch, n * n, b.key, out, n);
}

uint32_t plain_xor(const struct arithmetic *with, struct params p, struct cipher c, struct cipher d, int64_t *out, uint64_t out_len) {
    if (!in_range(p)) return 1;
    if (c.len != p.n || d.len != p.n || out_len != p.n) return 3;
    if (!with->all_residues(c.entries, c.len, p.q) || !with->all_residues(d.entries, d.len, p.q)) return 6;
    if (!fits(p.q, c.bound) || !fits(p.q, d.bound)) return 8;
    if (!fits(p.q, (uint64_t)c.bound + d.bound)) return 10;
    with->sum(p.q, c.entries, d.entries, out, p.n);
    return 0;
}

uint32_t plain_not(const struct arithmetic *with, struct params p, struct cipher c, int64_t *out, uint64_t out_len) {
    if (!in_range(p)) return 1;
    if (c.len != p.n || out_len != p.n) return 3;
    if (!with->all_residues(c.entries, c.len, p.q)) return 6;
    if (!fits(p.q, c.bound)) return 8;
    work_not(p.q, p.n, c.entries, out);
    return 0;
}

/* ---- evaluation */

static void work(const struct arithmetic *with, struct params p, struct circuit c, struct buffers b) {
    const uint64_t n = p.n;
    for (uint64_t g = 0; g < c.gates; g++) {
        const int64_t *left = b.wires + c.lefts[g] * n, *right = b.wires + c.rights[g] * n;
        int64_t *own = b.wires + (c.inputs + g) * n;
        if (c.kinds[g] == XOR) with->sum(p.q, left, right, own, n);
        if (c.kinds[g] == AND) work_and(with, p.q, n, left, right, b, own);
        if (c.kinds[g] == NOT) work_not(p.q, n, left, own);
    }
    memset(b.scratch, 0, n * n * sizeof *b.scratch);
}

uint32_t plain_evaluate(const struct arithmetic *with, struct params p, struct circuit c, struct buffers b) {
    const uint64_t n = p.n, total = c.inputs + c.gates;
    if (!in_range(p)) return 1;
    if (!counts_in_range(c)) return 2;
    if (b.wires_len != total * n || b.bounds_len != total || b.key_len != n * n * n || b.scratch_len != n * n) return 3;
    if (!with->all_residues(b.wires, c.inputs * n, p.q) || !with->all_residues(b.key, b.key_len, (int64_t)p.q * p.q)) return 6;
    const uint32_t number = plain_plan(p, c, b.bounds, b.bounds_len);
    if (number == 0) work(with, p, c, b);
    return number;
}

/* ---- the file check */

static uint32_t two(const uint8_t *at) { return (uint32_t)at[0] << 8 | at[1]; }

static uint32_t four(const uint8_t *at) { return two(at) << 16 | two(at + 2); }

/* Fills the three lists from the gates' records. */
static void list_gates(const uint8_t *records, uint64_t gates, uint32_t *kinds, uint32_t *lefts, uint32_t *rights) {
    for (uint64_t g = 0; g < gates; g++) {
        const uint8_t *record = records + g * RECORD;
        kinds[g] = record[0];
        lefts[g] = two(record + 1);
        rights[g] = two(record + 3);
    }
}

uint32_t plain_check(const uint8_t *file, uint64_t file_len) {
    uint32_t kinds[MOST_GATES], lefts[MOST_GATES], rights[MOST_GATES], table[MOST_INPUTS + MOST_GATES];
    if (file_len < HEAD) return 12;
    if (memcmp(file, "GAT\0\1", 5) != 0) return 11;
    const struct params p = {two(file + 5), four(file + 7), two(file + 11), four(file + 13), two(file + 17)};
    const struct circuit c = {two(file + 19), two(file + 21), kinds, lefts, rights};
    if (!in_range(p)) return 1;
    if (!counts_in_range(c)) return 2;
    if (file_len != HEAD + RECORD * c.gates) return 12;
    list_gates(file + HEAD, c.gates, kinds, lefts, rights);
    if (!all_right(c)) return 9;
    for (uint64_t w = 0; w < c.inputs; w++) table[w] = p.e;
    return settle(p, c, table);
}
