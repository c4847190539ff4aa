/* Works whose size is the number of gates: planning, and the check of a circuit file. Both go from one circuit to the next, so that the processor
   cannot learn by heart which way the branches go. */
#include <stdlib.h>
#include <string.h>
#include "../include/olwyddreg.h"
#include "draw.h"
#include "plain.h"
#include "rattle.h"
#include "work.h"

enum { INPUTS = 16, LEAST_GATES = 256, MOST_GATES = 4096, ALL_GATES = 65536, MOST_CIRCUITS = ALL_GATES / LEAST_GATES, HEAD = 23, RECORD = 5 };

/* The limits are low, so that every bound fits. */
static const struct params p = {64, 1048574, 1, 1, 0};

/* Circuits of equally many gates, one after the other, and their files. */
static uint64_t gates, circuits, file_len;
static uint32_t kinds[ALL_GATES], lefts[ALL_GATES], rights[ALL_GATES];
static uint8_t files[HEAD * MOST_CIRCUITS + RECORD * ALL_GATES];

/* For Rattle, for C. */
static uint32_t bounds[INPUTS + MOST_GATES], other_bounds[INPUTS + MOST_GATES];

/* ---- the loans */

/* Gates of all kinds, each on any wires below its own. */
static void lend_circuit(uint64_t start) {
    for (uint32_t g = 0; g < gates; g++) {
        kinds[start + g] = below(3);
        lefts[start + g] = below(INPUTS + g);
        rights[start + g] = kinds[start + g] == NOT ? 0 : below(INPUTS + g);
    }
}

/* Writes a number of so many big-endian bytes, and answers where they end. */
static uint8_t *write_bytes(uint8_t *at, unsigned bytes, uint32_t x) {
    for (unsigned k = 0; k < bytes; k++) at[k] = (uint8_t)(x >> (8 * (bytes - 1 - k)));
    return at + bytes;
}

static void write_file(uint8_t *at, uint64_t start) {
    const struct {
        unsigned bytes;
        uint32_t x;
    } head[] = {{2, 1}, {2, p.n}, {4, p.q}, {2, p.l}, {4, p.e}, {2, p.f}, {2, INPUTS}, {2, (uint32_t)gates}};
    memcpy(at, "GAT", 3);
    at += 3;
    for (unsigned k = 0; k < sizeof head / sizeof *head; k++) at = write_bytes(at, head[k].bytes, head[k].x);
    for (uint64_t g = start; g < start + gates; g++) {
        at = write_bytes(at, 1, kinds[g]);
        at = write_bytes(at, 2, lefts[g]);
        at = write_bytes(at, 2, rights[g]);
    }
}

static void lend(uint64_t size) {
    if (size < LEAST_GATES || size > MOST_GATES) exit(2);
    gates = size;
    circuits = ALL_GATES / gates;
    file_len = HEAD + RECORD * gates;
    for (uint64_t k = 0; k < circuits; k++) {
        lend_circuit(k * gates);
        write_file(files + k * file_len, k * gates);
    }
    for (uint64_t w = 0; w < INPUTS + gates; w++) bounds[w] = other_bounds[w] = p.e;
}

/* There is no need: the loans are small. */
static void warm(void) {}

/* ---- the works on one of the circuits: each answers its refusal number */

static uint32_t plan_by(enum who who, uint64_t which) {
    const uint64_t at = which * gates;
    if (who == RATTLE)
        return bench_plan(p.n, p.q, p.l, p.e, p.f, INPUTS, kinds + at, gates, lefts + at, gates, rights + at, gates, bounds, INPUTS + gates);
    return plain_plan(p, (struct circuit){INPUTS, gates, kinds + at, lefts + at, rights + at}, other_bounds, INPUTS + gates);
}

static uint32_t check_by(enum who who, uint64_t which) {
    const uint8_t *file = files + which * file_len;
    if (who == RATTLE) return (uint32_t)GAT_NUMBER(gat_check(file, file_len));
    return plain_check(file, file_len);
}

static void plan(unsigned which, enum who who, uint32_t times) {
    (void)which;
    for (uint32_t k = 0; k < times; k++) plan_by(who, k % circuits);
}

static void check(unsigned which, enum who who, uint32_t times) {
    (void)which;
    for (uint32_t k = 0; k < times; k++) check_by(who, k % circuits);
}

static void nothing(unsigned which, enum who who, uint32_t times) {
    (void)which;
    (void)who;
    (void)times;
}

/* So that a time taken is a millisecond at least. */
static uint32_t often(unsigned which) {
    (void)which;
    return (uint32_t)(3 * circuits);
}

static const struct work works[] = {
    {"plan", plan, nothing, 0, often},
    {"check", check, nothing, 0, often},
};

/* ---- whether Rattle and C agree */

/* Both refuse a file whose first gate has an operand ahead; then the file is as it was. */
static int refusals_agree(void) {
    uint8_t *left = files + HEAD + 1;
    const uint8_t found = *left;
    *left = 255;
    const int refused = check_by(RATTLE, 0) == 9 && check_by(INT128, 0) == 9;
    *left = found;
    return refused;
}

static int agree(void) {
    for (uint64_t k = 0; k < circuits; k++) {
        if (plan_by(RATTLE, k) != 0 || plan_by(INT128, k) != 0 || check_by(RATTLE, k) != 0 || check_by(INT128, k) != 0) return 0;
        if (memcmp(bounds, other_bounds, (INPUTS + gates) * sizeof *bounds) != 0) return 0;
    }
    return refusals_agree();
}

const struct family by_gates = {works, sizeof works / sizeof *works, lend, warm, agree};
