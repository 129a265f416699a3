/* Blocks of T=1 over a line: their times, and how either end receives and sends them. */
#ifndef SERIAL_T1_H
#define SERIAL_T1_H

#include "serial_line.h"

/* The times of a line at T=1 in microseconds, with the line's slack: see `gt_atr_t1`. */
struct t1_times {
    int64_t bwt, cwt, bgt;
};

/* The terminal's end. */
struct t1_end {
    struct line *line;
    struct t1_times times;
    gt_t1 end;
};

/* The times from an answer to reset, at the line's rate and this clock in cycles a second. */
struct t1_times t1_times_of(const struct line *line, const gt_atr_t1 *says, unsigned long clock);

/* The received part of a block. */
struct t1_block {
    uint8_t bytes[GT_BLOCK_LIMIT + 1];
    size_t n;
};

/* Receives the rest of the other end's block, and waits this long for its first byte. NULL: it has
 * as many bytes as its LEN says, and no byte has followed for BGT. LINE_IS_SILENT: no byte was
 * received. LINE_IS_BROKEN: the block stopped, a character had a wrong parity, or bytes have
 * followed: then it drops all until no byte comes for CWT. */
const char *t1_receive(struct line *line, const struct t1_times *times, int64_t wait,
                       struct t1_block *block);

/* Carries a command to the card, and its response back. `known` is what is known of its operation
 * before that: GT_NOT_CARRIED_OUT, GT_UNKNOWN or GT_IN_PART. Returns NULL, or why it failed, and
 * what is known of the operation then; the text stays until the next call. */
const char *t1_carry(struct t1_end *t1, const uint8_t *apdu, size_t n, int32_t known,
                     uint8_t *response, size_t room, size_t *len);

#endif
