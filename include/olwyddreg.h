/* Olwyddreg from C: a circuit file is checked and planned before a ciphertext moves.

   Link with libhost.a, which `rt lib --cpu x86-64` makes in crates/host, as out/libhost.a. It is x86-64 code and needs no other library.

   A circuit file is the bytes that document 01 lays out (docs/PAPER.md): 23 bytes of head, then 5 a gate. The noise of each wire has a tracked
   bound; a circuit is taken only where four times the bound of every gate is less than the modulus q.

   Calls keep no state, allocate nothing and may run on several threads at once. Every pointer goes with a length. A null pointer is taken where
   its length is 0, as an empty run of bytes. A run of bytes must be readable (bounds: writable) for its whole length, and bounds must not overlap
   the file. */
#ifndef OLWYDDREG_H
#define OLWYDDREG_H

#include <stddef.h>
#include <stdint.h>

#ifdef __cplusplus
extern "C" {
#endif

/* The refusal numbers of document 01. The two calls below answer 0, 1, 2, 3, 9, 10, 11 and 12; the others belong to keys and ciphertexts. */
enum gat_number {
    GAT_DONE = 0,       /* done: no number applies */
    GAT_PARAMETER = 1,  /* a parameter is outside its range: n 2 to 1,024, q even and 16 to 1,048,576, L 1 to 4,096, 4E below q, F to 65,535 */
    GAT_COUNT = 2,      /* not 1 to 1,024 inputs, or not 1 to 4,096 gates */
    GAT_BUFFER = 3,     /* a lent buffer's length differs from the one required */
    GAT_KEY = 4,        /* a key does not begin with 1, or its sum exceeds L */
    GAT_BIT = 5,        /* a bit is neither 0 nor 1 */
    GAT_ENTRY = 6,      /* a mask, ciphertext or switching entry is outside its range */
    GAT_ERROR = 7,      /* a lent error exceeds E or F */
    GAT_STATED = 8,     /* a stated bound has four times it at or above q */
    GAT_GATE = 9,       /* a gate's kind, an operand or NOT's right is wrong */
    GAT_BUDGET = 10,    /* a gate's bound has four times it at or above q */
    GAT_MARK = 11,      /* the file's mark or version is unknown */
    GAT_FILE = 12       /* the file's length is wrong */
};

/* An answer is 65,536 times a number plus a place: the first offending gate for GAT_GATE and GAT_BUDGET, and otherwise 0. */
#define GAT_NUMBER(answer) ((enum gat_number)((answer) >> 16))
#define GAT_PLACE(answer) ((unsigned)((answer)&65535))

/* The file check: goes through the file's whole order of refusals, GAT_BUDGET included. A file shorter than 23 bytes gives GAT_FILE; then come
   GAT_MARK, GAT_PARAMETER, GAT_COUNT, GAT_FILE for a length that is not 23 + 5 a gate, GAT_GATE, GAT_BUDGET. The first that applies is given. */
uint64_t gat_check(const uint8_t *file, size_t file_length);

/* Planning: as the check, and where it answers 0 writes every wire's bound, inputs first, four big-endian bytes each. bounds_length must be four
   times the number of wires, inputs and gates together; GAT_BUFFER comes after the file's GAT_FILE and before GAT_GATE. On a refusal nothing is
   written. */
uint64_t gat_plan(const uint8_t *file, size_t file_length, uint8_t *bounds, size_t bounds_length);

#ifdef __cplusplus
}
#endif

#endif
