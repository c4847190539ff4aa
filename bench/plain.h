/* XOR, NOT, planning, evaluation and the file check in plain C, straight from document 01: what the Rattle calls are held against. */
#ifndef PLAIN_H
#define PLAIN_H
#include <stdint.h>
#include "loops.h"

enum { XOR, AND, NOT };

struct params {
    uint32_t n, q, l, e, f;
};

/* Gates as three lists: kind (0 XOR, 1 AND, 2 NOT), left wire, right wire. */
struct circuit {
    uint64_t inputs, gates;
    const uint32_t *kinds, *lefts, *rights;
};

/* The buffers of an evaluation, with their lengths. */
struct buffers {
    int64_t *wires;
    uint64_t wires_len;
    uint32_t *bounds;
    uint64_t bounds_len;
    const int64_t *key;
    uint64_t key_len;
    int64_t *scratch;
    uint64_t scratch_len;
};

/* A lent ciphertext and its stated bound. */
struct cipher {
    const int64_t *entries;
    uint64_t len;
    uint32_t bound;
};

/* Each answers the refusal number, and writes nothing where it is not 0. All but planning work with one way of the arithmetic. */
uint32_t plain_plan(struct params p, struct circuit c, uint32_t *bounds, uint64_t bounds_len);
uint32_t plain_evaluate(const struct arithmetic *with, struct params p, struct circuit c, struct buffers b);
uint32_t plain_xor(const struct arithmetic *with, struct params p, struct cipher c, struct cipher d, int64_t *out, uint64_t out_len);
uint32_t plain_not(const struct arithmetic *with, struct params p, struct cipher c, int64_t *out, uint64_t out_len);

/* The file check: answers the refusal number alone, without the place. */
uint32_t plain_check(const uint8_t *file, uint64_t file_len);

#endif
