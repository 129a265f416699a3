/* The terminal's end of TPDUs at T=0 over a line. */
#ifndef SERIAL_T0_H
#define SERIAL_T0_H

#include "serial_line.h"

struct t0_end {
    struct line *line;
    int64_t waiting_time;       /* for a character of the card, with the line's slack */
};

/* A result of `t0_pass`, as this very pointer: `t0_status` has the status. */
extern const char T0_CUT_SHORT[];

/* Passes the characters of the operation in progress, until it ends. With `is_one` it ends after
 * its first TPDU: a 61XX or 6CXX after which the terminal would send another is the last status.
 * The operation's answer then has the data, and `t0_status` the status. Each TPDU may take the
 * line's patience. It sends no other header once the card has ended a TPDU before it took the data,
 * with a status that is no refusal.
 *
 * Returns NULL, or a few words that say what went wrong. They stay until the next call. */
const char *t0_pass(struct t0_end *t0, gt_terminal *terminal, bool is_one);

/* The last two bytes of the card, after a TPDU. */
const uint8_t *t0_status(const struct line *line);

#endif
