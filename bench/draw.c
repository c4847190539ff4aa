#include "draw.h"
#include <stdlib.h>

static uint64_t next(void) {
    static uint64_t state = 88172645463325252ull;
    state ^= state << 13;
    state ^= state >> 7;
    state ^= state << 17;
    return state;
}

int64_t draw(int64_t half) { return (int64_t)(next() % (uint64_t)(2 * half)) - half; }

uint32_t below(uint32_t most) { return (uint32_t)(next() >> 20) % most; }

void fill(int64_t *xs, uint64_t entries, int64_t half) {
    for (uint64_t j = 0; j < entries; j++) xs[j] = draw(half);
}

int64_t *drawn(uint64_t entries, int64_t half) {
    int64_t *xs = malloc(entries * sizeof *xs);
    if (!xs) exit(2);
    fill(xs, entries, half);
    return xs;
}
