/* Drawn numbers for the loans, the same in every run. */
#ifndef DRAW_H
#define DRAW_H
#include <stdint.h>

/* A number in -half to half-1. */
int64_t draw(int64_t half);

/* A number in 0 to most-1. */
uint32_t below(uint32_t most);

/* Fills a buffer with numbers in -half to half-1. */
void fill(int64_t *xs, uint64_t entries, int64_t half);

/* A new buffer of such numbers. */
int64_t *drawn(uint64_t entries, int64_t half);

#endif
