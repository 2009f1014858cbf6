/* The buffers of a call for rounds, for buffers.c and header.c, which say by BITS, CHECKS, EDGES and
 * CERTIFICATE how many elements each needs. */
#ifndef LENT_H
#define LENT_H

#include <stddef.h>
#include <stdint.h>

/* In the call's order: elements, name, how many are needed, and the first of the numbers that no call writes
 * to it. */
#define EACH_BUFFER(buffer) \
    buffer(int32_t, spins, BITS, 10000000) \
    buffer(int32_t, copies, EDGES, 20000000) \
    buffer(int32_t, offsets, EDGES, 30000000) \
    buffer(int32_t, sums, BITS, 60000000) \
    buffer(uint32_t, multipliers, CHECKS, 40000000) \
    buffer(uint32_t, masks, CHECKS, 50000000) \
    buffer(uint32_t, depths, CHECKS, 70000000) \
    buffer(uint8_t, word, BITS, 100) \
    buffer(uint8_t, certificate, CERTIFICATE, 200)

#define LENGTH(element, name, need, first) size_t name;
typedef struct {
    EACH_BUFFER(LENGTH)
} Lengths;

#define NEEDED(element, name, need, first) need,
static const Lengths needed = {EACH_BUFFER(NEEDED)};

/* As arguments: the first `n` elements of those in `b`. */
#define LEND(element, name, need, first) , b->name, n.name

#endif
