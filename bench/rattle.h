/* The calls of the crate bench: a slice is a pointer, then a length. Those with `times` test their loans once, then run so often. */
#ifndef RATTLE_H
#define RATTLE_H
#include <stdint.h>

uint32_t bench_switch(uint32_t q, const int64_t *t, uint64_t t_len, const int64_t *key, uint64_t key_len, int64_t *out, uint64_t out_len,
                      uint32_t times);
uint32_t bench_range(uint32_t q, const int64_t *key, uint64_t key_len, uint32_t times);
uint32_t bench_tensor(uint32_t q, const int64_t *c, uint64_t c_len, const int64_t *d, uint64_t d_len, int64_t *out, uint64_t out_len,
                      uint32_t times);
uint32_t bench_xor(uint32_t n, uint32_t q, uint32_t l, uint32_t e, uint32_t f, const int64_t *c, uint64_t c_len, uint32_t b1, const int64_t *d,
                   uint64_t d_len, uint32_t b2, int64_t *out, uint64_t out_len);
uint32_t bench_not(uint32_t n, uint32_t q, uint32_t l, uint32_t e, uint32_t f, const int64_t *c, uint64_t c_len, uint32_t bound, int64_t *out,
                   uint64_t out_len);
uint32_t bench_plan(uint32_t n, uint32_t q, uint32_t l, uint32_t e, uint32_t f, uint32_t inputs, const uint32_t *kinds, uint64_t kinds_len,
                    const uint32_t *lefts, uint64_t lefts_len, const uint32_t *rights, uint64_t rights_len, uint32_t *bounds, uint64_t bounds_len);
uint32_t bench_evaluate(uint32_t n, uint32_t q, uint32_t l, uint32_t e, uint32_t f, uint32_t inputs, const uint32_t *kinds, uint64_t kinds_len,
                        const uint32_t *lefts, uint64_t lefts_len, const uint32_t *rights, uint64_t rights_len, int64_t *wires,
                        uint64_t wires_len, uint32_t *bounds, uint64_t bounds_len, const int64_t *key, uint64_t key_len, int64_t *scratch,
                        uint64_t scratch_len);

#endif
