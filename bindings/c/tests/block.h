/* Writes blocks of T=1 (ISO/IEC 7816-3, 11.3), for tests that are one end of a line. */
#ifndef BLOCK_H
#define BLOCK_H

#include "galliumtoad.h"

#include <string.h>

/* A block with this PCB and field: NAD is 00, and LRC makes the exclusive-or of all bytes 00.
 * Returns its length. */
static inline size_t block_of(uint8_t block[GT_BLOCK_LIMIT], uint8_t pcb, const uint8_t *field,
                              size_t n) {
    size_t i;
    block[0] = 0;
    block[1] = pcb;
    block[2] = (uint8_t)n;
    if (n > 0) memcpy(block + 3, field, n);
    block[n + 3] = 0;
    for (i = 0; i < n + 3; i++) block[n + 3] ^= block[i];
    return n + 4;
}

#endif
