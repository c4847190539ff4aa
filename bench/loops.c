#include "loops.h"

/* [x]q for an x that is at most q outside the range. */
static inline int64_t one_turn(int64_t x, int64_t q) {
    if (2 * x < -q) return x + q;
    if (2 * x >= q) return x - q;
    return x;
}

static inline int64_t centre(int64_t x, int64_t q) { return one_turn(x % q, q); }

int64_t centred(int64_t x, int64_t q) { return centre(x, q); }

/* round(a/q), a half up. */
static inline int64_t round_int64(int64_t a, int64_t q) {
    const int64_t raised = a + q / 2, k = raised / q;
    return raised % q < 0 ? k - 1 : k;
}

/* The quotient of a row's sum always fits 64 bits. */
static int64_t round_int128(__int128 a, int64_t q) {
    const __int128 raised = a + q / 2;
    const int64_t k = (int64_t)(raised / q);
    return raised % q < 0 ? k - 1 : k;
}

/* ---- straight from document 01 */

static int range_straight(const int64_t *xs, uint64_t count, int64_t modulus) {
    for (uint64_t j = 0; j < count; j++)
        if (xs[j] < -modulus / 2 || modulus / 2 <= xs[j]) return 0;
    return 1;
}

static void sum_straight(int64_t q, const int64_t *c, const int64_t *d, int64_t *out, uint64_t n) {
    for (uint64_t i = 0; i < n; i++) out[i] = centre(c[i] + d[i], q);
}

static void tensor_straight(int64_t q, const int64_t *c, const int64_t *d, int64_t *out, uint64_t n) {
    for (uint64_t u = 0; u < n; u++)
        for (uint64_t v = 0; v < n; v++) out[u * n + v] = centre(round_int64(2 * c[u] * d[v], q), q);
}

static void switch_int128(int64_t q, const int64_t *t, uint64_t columns, const int64_t *key, int64_t *out, uint64_t n) {
    for (uint64_t i = 0; i < n; i++) {
        const int64_t *row = key + i * columns;
        __int128 sum = 0;
        for (uint64_t j = 0; j < columns; j++) sum += (__int128)t[j] * row[j];
        out[i] = centre(round_int128(sum, q), q);
    }
}

const struct arithmetic straight = {range_straight, sum_straight, tensor_straight, switch_int128};

/* ---- in the same shape */

static int range_shape(const int64_t *xs, uint64_t count, int64_t modulus) {
    const uint64_t half = (uint64_t)modulus / 2, top = 1ull << 63;
    uint64_t some = 0, each = UINT64_MAX;
    for (uint64_t j = 0; j < count; j++) {
        const uint64_t raised = (uint64_t)xs[j] + half;
        some |= raised;
        each &= raised - 2 * half;
    }
    return some < top && top <= each;
}

static void sum_shape(int64_t q, const int64_t *c, const int64_t *d, int64_t *out, uint64_t n) {
    for (uint64_t i = 0; i < n; i++) out[i] = one_turn(c[i] + d[i], q);
}

/* A row is a line over the entries of d, with 42 binary places: a product, a sum and a shift for each, and one division in all. */
static void tensor_shape(int64_t q, const int64_t *c, const int64_t *d, int64_t *out, uint64_t n) {
    const int64_t half = q / 2, reciprocal = (1ll << 62) / half, base = (1ll << 41) + q;
    for (uint64_t u = 0; u < n; u++) {
        const int64_t slope = c[u] * reciprocal >> 20;
        for (uint64_t v = 0; v < n; v++) {
            const int64_t k = (slope * d[v] + base) >> 42;
            out[u * n + v] = k >= half ? -half : k;
        }
    }
}

/* Chunks of 16 products in 64 bits, folded into a high and a low part. */
static void switch_shape(int64_t q, const int64_t *t, uint64_t columns, const int64_t *key, int64_t *out, uint64_t n) {
    for (uint64_t i = 0; i < n; i++) {
        const int64_t *row = key + i * columns;
        int64_t hi = 0, lo = 0;
        uint64_t j = 0;
        for (; j + 16 <= columns; j += 16) {
            int64_t sum = 0;
            for (int k = 0; k < 16; k++) sum += t[j + k] * row[j + k];
            hi += sum / 1048576;
            lo += sum % 1048576;
        }
        int64_t rest = 0;
        for (; j < columns; j++) rest += t[j] * row[j];
        hi += rest / 1048576;
        lo += rest % 1048576;
        out[i] = centre(round_int64(hi % (q * q) * 1048576 + lo, q), q);
    }
}

const struct arithmetic same_shape = {range_shape, sum_shape, tensor_shape, switch_shape};

/* ---- a plain read */

int64_t read_key(const int64_t *key, uint64_t entries) {
    int64_t sum = 0;
    for (uint64_t j = 0; j < entries; j++) sum ^= key[j];
    return sum;
}
