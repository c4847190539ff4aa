/* The loops of the arithmetic in C, two ways that the Rattle loops are held against, and a plain read of the key. */
#ifndef LOOPS_H
#define LOOPS_H
#include <stdint.h>

/* One way: the range check, XOR's sum, the tensor, the switch. */
struct arithmetic {
    int (*all_residues)(const int64_t *xs, uint64_t count, int64_t modulus);
    void (*sum)(int64_t q, const int64_t *c, const int64_t *d, int64_t *out, uint64_t n);
    void (*tensor)(int64_t q, const int64_t *c, const int64_t *d, int64_t *out, uint64_t n);
    void (*change)(int64_t q, const int64_t *t, uint64_t columns, const int64_t *key, int64_t *out, uint64_t n);
};

/* Straight from document 01: [x]q and round by division, S in __int128, a range check that ends at the first entry beyond. */
extern const struct arithmetic straight;

/* In the same shape as the Rattle loops: S in chunks of 16, one division in all of the tensor and none a sum, a range check with no exit. */
extern const struct arithmetic same_shape;

/* [x]q: in -q/2 to q/2-1. */
int64_t centred(int64_t x, int64_t q);

int64_t read_key(const int64_t *key, uint64_t entries);

#endif
