/* The reset of a card at a terminal's end: its answer, what that says of the line, and PPS. */
#ifndef SERIAL_ANSWER_H
#define SERIAL_ANSWER_H

#include "serial_line.h"

/* the clock cycles of an etu before a card says otherwise, and the code of that rate (ISO/IEC
 * 7816-3, 8.1 and 8.3) */
#define ANSWER_CYCLES 372
#define RATE_OF_RESET 0x11

/* the most characters before TS that are taken for noise (profile) */
#define ANSWER_NOISE_LIMIT 16

/* no protocol in particular: the one that the card offers first */
#define ANSWER_FIRST (-1)

/* How the card is reset. */
struct answer_wishes {
    enum gt_port_signal reset;     /* the line that does it, or GT_PORT_NONE */
    bool is_held_by_on;         /* it holds the card in reset while it is on */
    bool opens_again;           /* a pseudo terminal is opened again for it, unless it is fresh */
    int64_t patience;           /* how long somebody may take to reset the card by hand */
    unsigned long clock;        /* the card's cycles in a second; 0: 372 times the line's rate */
};

/* An answer to reset, and the line it came over. */
struct answer {
    struct line *line;
    unsigned long clock;        /* cycles in a second */
    unsigned long baud;         /* the rate of the reset */
    uint8_t bytes[GT_ATR_LIMIT];
    size_t n;
    gt_atr says;
};

/* Each of these returns NULL, or a few words that say why no TPDU can follow. They stay until the
 * next call. */

/* Resets the card and reads its answer. Opening a pseudo terminal is already its reset, and so is a
 * reset by hand. If that fails, the port resets it a second time. Skips noise before TS. After a
 * second silence it returns the first fault. */
const char *answer_take(struct answer *answer, struct line *line,
                        const struct answer_wishes *wishes);

/* The first protocol of a talk: this one, or the one that the card offers first. */
int answer_protocol(const gt_atr *says, int wanted);

/* Why a terminal refuses a card whose answer says this, for T=0 or T=1. */
const char *answer_refusal(const gt_atr *says, int protocol);

/* Continues with this protocol, at the rate of the answer, or after PPS: if PPS is requested, or if
 * the card offers another protocol first. The line then has its convention, its parity, its rate
 * and its guard time. `waiting_time` gets how long a terminal waits for a character of the card at
 * T=0, with the line's slack. */
const char *answer_go_on(struct answer *answer, int protocol, bool asks_pps,
                         int64_t *waiting_time);

/* The rate of the card's Fi and Di in baud. Neither may be 0. */
unsigned long answer_rate(const struct answer *answer);

/* The waiting time of T=0, or 0 if WI is reserved. For a reserved Fi it is that of the rate of a
 * reset. */
int64_t answer_waiting_time(const struct answer *answer);

#endif
