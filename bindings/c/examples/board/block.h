/* Blocks of T=1 on the line, for both ends. */
#ifndef BLOCK_H
#define BLOCK_H

#include "line.h"

#include <galliumtoad.h>

/* the etu between blocks of different ends (BGT) */
#define BLOCK_GUARD 22u

struct block {
    uint8_t bytes[GT_BLOCK_LIMIT];
    size_t n;
};

/* Receives a block whose first character must come within `wait` ticks, and each other within
 * `cwt`. LINE_SILENT: none came, or it stopped. LINE_WRONG: a character had a wrong parity; all is
 * dropped until none comes for `cwt`. */
enum line_result block_receive(struct block *block, uint64_t wait, uint64_t cwt);

#endif
