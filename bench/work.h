/* A work by name, and who does it: what the clock and the counter of instructions share. */
#ifndef WORK_H
#define WORK_H
#include <stdint.h>

/* The Rattle calls; C straight from document 01, with __int128 for S; C in the same shape as Rattle; a plain read of the key. */
enum who { RATTLE, INT128, SHAPE, READ };

/* The cost of a work done `times` times is that of `run` less that of `rest`, which does all but the work itself. */
struct work {
    const char *name;
    void (*run)(unsigned which, enum who who, uint32_t times);
    void (*rest)(unsigned which, enum who who, uint32_t times);
    unsigned which;
    uint32_t (*times)(unsigned which); /* how often it is done for one time that is taken */
};

/* Works on loans of one size. `lend` makes the loans; `warm` reads through them, so that everyone finds the cache alike; `agree` says whether Rattle
   and C leave equal buffers on them. */
struct family {
    const struct work *works;
    unsigned count;
    void (*lend)(uint64_t size);
    void (*warm)(void);
    int (*agree)(void);
};

extern const struct family by_n, by_gates;

#endif
