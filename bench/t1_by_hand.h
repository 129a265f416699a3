/* Both ends of T=1, written by hand without a proof, as in firmware: with R-blocks and chains, but
 * without S(WTX), S(ABORT) and S(RESYNCH). Commands and responses are cleared where they end. */
#ifndef T1_BY_HAND_H
#define T1_BY_HAND_H

#include <galliumtoad.h>

struct t1_buffer {
    uint8_t bytes[GT_APDU_LIMIT];
    size_t n;
};

/* A card's end above the library's card. */
struct t1_card {
    gt_card *card;
    uint8_t due, next, ifsd;
    bool is_answering;
    struct t1_buffer command, response;
    size_t from, until;         /* the part of the response in the last block */
};

struct t1_terminal {
    uint8_t due, next, ifsc;
    struct t1_buffer command, response;
    size_t from, until;
};

/* Takes a block, valid or not, and writes the card's answer. Returns its length. */
size_t t1_card_takes(struct t1_card *c, const uint8_t *block, size_t n,
                     uint8_t answer[GT_BLOCK_LIMIT]);

/* Writes the terminal's first block of a command. Returns its length. */
size_t t1_terminal_begins(struct t1_terminal *t, const uint8_t *apdu, size_t n,
                          uint8_t block[GT_BLOCK_LIMIT]);

/* Takes a block of the card, valid or not, and writes the terminal's next one. Returns its length,
 * or 0 if the response is whole. */
size_t t1_terminal_takes(struct t1_terminal *t, const uint8_t *answer, size_t n,
                         uint8_t block[GT_BLOCK_LIMIT]);

#endif
