/* Works whose size is n: the row loop, the switch, the range check of the key, the tensor, an AND in a circuit, XOR and NOT, a whole circuit. */
#define _GNU_SOURCE
#include <stdlib.h>
#include <string.h>
#include <sys/mman.h>
#include <unistd.h>
#include "draw.h"
#include "plain.h"
#include "rattle.h"
#include "work.h"

enum { INPUTS = 16, MOST_GATES = 4096, WIRES = INPUTS + MOST_GATES, CIRCUIT_ANDS = 100, CIRCUIT_GATES = 2 * CIRCUIT_ANDS };

/* An even modulus that is no power of two; the limits are low, so that every bound fits. */
static const uint32_t q = 1048574;

/* Which key: the whole one, or one whose rows all lie in the memory of one row, which stays in the cache. */
enum which_key { WHOLE_KEY, SAME_ROWS, KEYS };

/* Two ciphertexts, their tensor, the keys, and where a switch goes: for Rattle, for C. */
static uint64_t n, columns, entries;
static int64_t *c, *d, *t, *keys[KEYS], *out, *check;

/* What an evaluation works in: for Rattle, for C. */
struct side {
    int64_t *wires, *scratch;
    uint32_t bounds[WIRES];
};
static struct side ours, theirs;

/* ANDs of drawn inputs, and the gates of the whole circuit. */
static uint32_t ands[MOST_GATES], lefts[MOST_GATES], rights[MOST_GATES];
static uint32_t circuit_kinds[CIRCUIT_GATES], circuit_lefts[CIRCUIT_GATES], circuit_rights[CIRCUIT_GATES];

/* ---- the loans */

/* A key of n³ entries in the memory of one row, or of a page where a row is less. */
static int64_t *lend_same_rows(int64_t half) {
    const size_t bytes = entries * sizeof(int64_t), page = (size_t)sysconf(_SC_PAGESIZE);
    const size_t row = columns * sizeof(int64_t) < page ? page : columns * sizeof(int64_t), all = bytes < row ? row : bytes;
    const int file = memfd_create("row", 0);
    char *start = mmap(NULL, all, PROT_NONE, MAP_PRIVATE | MAP_ANONYMOUS, -1, 0);
    if (file < 0 || ftruncate(file, (off_t)row) != 0 || start == MAP_FAILED) exit(2);
    for (size_t at = 0; at < all; at += row)
        if (mmap(start + at, row, PROT_READ | PROT_WRITE, MAP_SHARED | MAP_FIXED, file, 0) == MAP_FAILED) exit(2);
    fill((int64_t *)start, row / sizeof(int64_t), half);
    return (int64_t *)start;
}

static void lend_ands(void) {
    for (uint32_t g = 0; g < MOST_GATES; g++) {
        ands[g] = AND;
        lefts[g] = below(INPUTS);
        rights[g] = below(INPUTS);
    }
}

/* ANDs of inputs, each followed by an XOR that adds it to the others, at most 16 at a time, so that the budget lasts. */
static void lend_circuit(void) {
    for (uint32_t k = 0; k < CIRCUIT_ANDS; k++) {
        const uint32_t g = 2 * k, made = INPUTS + g;
        circuit_kinds[g] = AND;
        circuit_lefts[g] = below(INPUTS);
        circuit_rights[g] = below(INPUTS);
        circuit_kinds[g + 1] = XOR;
        circuit_lefts[g + 1] = made;
        circuit_rights[g + 1] = k % 16 == 0 ? below(INPUTS) : made - 1;
    }
}

static void lend_side(struct side *s, int64_t half) {
    s->wires = drawn(WIRES * n, half);
    s->scratch = drawn(columns, half);
    for (uint32_t w = 0; w < WIRES; w++) s->bounds[w] = 1;
}

static void lend(uint64_t size) {
    const int64_t half = q / 2, big = (int64_t)q * q / 2;
    n = size;
    columns = n * n;
    entries = n * columns;
    c = drawn(n, half);
    d = drawn(n, half);
    t = drawn(columns, half);
    out = drawn(n, half);
    check = drawn(n, half);
    keys[WHOLE_KEY] = drawn(entries, big);
    keys[SAME_ROWS] = lend_same_rows(big);
    lend_ands();
    lend_circuit();
    lend_side(&ours, half);
    lend_side(&theirs, half);
    memcpy(theirs.wires, ours.wires, INPUTS * n * sizeof *ours.wires);
}

/* Several passes, as it takes some until a cache beyond the core's own holds what it can of the key; it holds little of the largest. */
static void warm(void) {
    for (unsigned pass = 0; pass < (n <= 128 ? 8 : 1); pass++) read_key(keys[WHOLE_KEY], entries);
}

/* ---- the works */

static const struct arithmetic *way(enum who who) { return who == INT128 ? &straight : &same_shape; }

static void nothing(unsigned which, enum who who, uint32_t times) {
    (void)which;
    (void)who;
    (void)times;
}

static void read_often(const int64_t *key, uint32_t times) {
    for (uint32_t k = 0; k < times; k++) read_key(key, entries);
}

static void switched(unsigned which, enum who who, uint32_t times) {
    const int64_t *key = keys[which];
    if (who == RATTLE) bench_switch(q, t, columns, key, entries, out, n, times);
    else if (who == READ) read_often(key, times);
    else
        for (uint32_t k = 0; k < times; k++) way(who)->change(q, t, columns, key, check, n);
}

/* The Rattle call tests its loans before the first switch; C's does not. */
static void switch_tests(unsigned which, enum who who, uint32_t times) {
    (void)times;
    if (who == RATTLE) bench_switch(q, t, columns, keys[which], entries, out, n, 0);
}

static void ranged(unsigned which, enum who who, uint32_t times) {
    const int64_t *key = keys[which];
    if (who == RATTLE) bench_range(q, key, entries, times);
    else if (who == READ) read_often(key, times);
    else
        for (uint32_t k = 0; k < times; k++) way(who)->all_residues(key, entries, (int64_t)q * q);
}

static void tensored(unsigned which, enum who who, uint32_t times) {
    (void)which;
    if (who == RATTLE) bench_tensor(q, c, n, d, n, t, columns, times);
    else
        for (uint32_t k = 0; k < times; k++) way(who)->tensor(q, c, d, t, n);
}

static uint32_t evaluate(enum who who, struct params p, struct circuit g, const int64_t *key) {
    const uint64_t total = g.inputs + g.gates;
    if (who == RATTLE)
        return bench_evaluate(p.n, p.q, p.l, p.e, p.f, (uint32_t)g.inputs, g.kinds, g.gates, g.lefts, g.gates, g.rights, g.gates, ours.wires,
                              total * n, ours.bounds, total, key, entries, ours.scratch, columns);
    return plain_evaluate(way(who), p, g, (struct buffers){theirs.wires, total * n, theirs.bounds, total, key, entries, theirs.scratch, columns});
}

static struct params low_limits(void) { return (struct params){(uint32_t)n, q, 1, 1, 0}; }

static uint32_t evaluate_ands(enum who who, uint32_t gates) {
    return evaluate(who, low_limits(), (struct circuit){INPUTS, gates, ands, lefts, rights}, keys[WHOLE_KEY]);
}

static void anded(unsigned which, enum who who, uint32_t times) {
    (void)which;
    if (who == READ) read_often(keys[WHOLE_KEY], times);
    else evaluate_ands(who, 1 + times);
}

/* An evaluation tests its loans, and works at least one gate. */
static void one_and(unsigned which, enum who who, uint32_t times) {
    (void)which;
    (void)times;
    if (who != READ) evaluate_ands(who, 1);
}

/* XOR and NOT go from one ciphertext to the next, so that the processor cannot learn by heart which way the branches go; all lie in the core's own
   cache. */
static const int64_t *cipher(uint64_t k) { return ours.wires + k % (65536 / n < WIRES ? 65536 / n : WIRES) * n; }

static uint32_t xor_by(enum who who, uint64_t k) {
    const struct params p = low_limits();
    if (who == RATTLE) return bench_xor(p.n, p.q, p.l, p.e, p.f, cipher(k), n, 1, cipher(k + 1), n, 1, out, n);
    return plain_xor(way(who), p, (struct cipher){cipher(k), n, 1}, (struct cipher){cipher(k + 1), n, 1}, check, n);
}

static uint32_t not_by(enum who who, uint64_t k) {
    const struct params p = low_limits();
    if (who == RATTLE) return bench_not(p.n, p.q, p.l, p.e, p.f, cipher(k), n, 1, out, n);
    return plain_not(way(who), p, (struct cipher){cipher(k), n, 1}, check, n);
}

static void xored(unsigned which, enum who who, uint32_t times) {
    (void)which;
    for (uint32_t k = 0; k < times; k++) xor_by(who, k);
}

static void notted(unsigned which, enum who who, uint32_t times) {
    (void)which;
    for (uint32_t k = 0; k < times; k++) not_by(who, k);
}

/* Sheet 4's q and limits. */
static uint32_t evaluate_circuit(enum who who) {
    const struct circuit g = {INPUTS, CIRCUIT_GATES, circuit_kinds, circuit_lefts, circuit_rights};
    return evaluate(who, (struct params){(uint32_t)n, 1048576, 64, 4, 2}, g, keys[WHOLE_KEY]);
}

/* The key is read once for each AND. */
static void whole_circuit(unsigned which, enum who who, uint32_t times) {
    (void)which;
    if (who == READ) read_often(keys[WHOLE_KEY], CIRCUIT_ANDS * times);
    else
        for (uint32_t k = 0; k < times; k++) evaluate_circuit(who);
}

/* ---- how often: so that a time taken is some milliseconds at least. Where the key is more than the core's own cache holds, it is gone through more
   often, since the first passes take longer than the later ones */

static uint32_t often(uint64_t steps) {
    const uint64_t times = (n < 128 ? 8000000 : 32000000) / steps;
    return times < 2 ? 2 : (uint32_t)times;
}

static uint32_t often_key(unsigned which) {
    (void)which;
    return often(entries);
}

static uint32_t often_tensor(unsigned which) {
    (void)which;
    return often(8 * columns);
}

static uint32_t often_and(unsigned which) {
    const uint32_t times = often_key(which);
    return times < MOST_GATES ? times : MOST_GATES - 1;
}

static uint32_t often_cipher(unsigned which) {
    (void)which;
    return often(4 * n);
}

static uint32_t once(unsigned which) {
    (void)which;
    return 1;
}

static const struct work works[] = {
    {"row", switched, switch_tests, SAME_ROWS, often_key}, {"switch", switched, switch_tests, WHOLE_KEY, often_key},
    {"range", ranged, nothing, WHOLE_KEY, often_key},      {"tensor", tensored, nothing, 0, often_tensor},
    {"and", anded, one_and, 0, often_and},                 {"xor", xored, nothing, 0, often_cipher},
    {"not", notted, nothing, 0, often_cipher},             {"circuit", whole_circuit, nothing, 0, once},
};

/* ---- whether Rattle and C agree */

static int same(const int64_t *a, const int64_t *b, uint64_t count) { return memcmp(a, b, count * sizeof *a) == 0; }

static int switches_agree(unsigned which, enum who who) {
    if (bench_switch(q, t, columns, keys[which], entries, out, n, 1) != 1) return 0;
    switched(which, who, 1);
    return same(out, check, n);
}

static int tensors_agree(enum who who) {
    int64_t *made = malloc(columns * sizeof *made);
    if (!made || bench_tensor(q, c, n, d, n, made, columns, 1) != 1) return 0;
    way(who)->tensor(q, c, d, t, n);
    const int agreed = same(made, t, columns);
    free(made);
    return agreed;
}

/* The key passes; with its last entry one beyond the range it does not. */
static int ranges_agree(enum who who) {
    const int64_t modulus = (int64_t)q * q;
    int64_t *last = &keys[WHOLE_KEY][entries - 1];
    const int64_t found = *last;
    const int pass = bench_range(q, keys[WHOLE_KEY], entries, 1) == 1 && way(who)->all_residues(keys[WHOLE_KEY], entries, modulus);
    *last = modulus / 2;
    const int refused = bench_range(q, keys[WHOLE_KEY], entries, 1) == 0 && !way(who)->all_residues(keys[WHOLE_KEY], entries, modulus);
    *last = found;
    return pass && refused;
}

static int sides_agree(uint64_t gates) {
    return same(ours.wires, theirs.wires, (INPUTS + gates) * n) && same(ours.scratch, theirs.scratch, columns) &&
           memcmp(ours.bounds, theirs.bounds, (INPUTS + gates) * sizeof *ours.bounds) == 0;
}

static int ands_agree(enum who who) {
    if (evaluate_ands(RATTLE, 3) != 0 || evaluate_ands(who, 3) != 0) return 0;
    return sides_agree(3);
}

static int ciphers_agree(enum who who) {
    if (xor_by(RATTLE, 0) != 0 || xor_by(who, 0) != 0 || !same(out, check, n)) return 0;
    return not_by(RATTLE, 0) == 0 && not_by(who, 0) == 0 && same(out, check, n);
}

static int circuits_agree(enum who who) {
    if (evaluate_circuit(RATTLE) != 0 || evaluate_circuit(who) != 0) return 0;
    return sides_agree(CIRCUIT_GATES);
}

static int agree(void) {
    for (enum who who = INT128; who <= SHAPE; who++) {
        if (!tensors_agree(who) || !ranges_agree(who) || !ands_agree(who) || !ciphers_agree(who)) return 0;
        for (unsigned which = 0; which < KEYS; which++)
            if (!switches_agree(which, who)) return 0;
        if (n == 64 && !circuits_agree(who)) return 0;
    }
    return 1;
}

const struct family by_n = {works, sizeof works / sizeof *works, lend, warm, agree};
