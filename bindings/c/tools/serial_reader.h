/* A card at a serial line, as a reader of PC/SC shows it: presence, power, protocol, commands. All
 * that it keeps is in its `struct serial_reader`, so a program may have many. */
#ifndef SERIAL_READER_H
#define SERIAL_READER_H

#include "serial_answer.h"
#include "serial_settings.h"
#include "serial_t0.h"
#include "serial_t1.h"

/* the most bytes of an answer at T=1: 65,536 of data, and the status */
#define SERIAL_READER_ANSWER 65538

enum serial_reader_state {
    SERIAL_READER_REMOVED,      /* the tty was there, and can't be opened again */
    SERIAL_READER_EMPTY,        /* so is one whose tty was never there */
    SERIAL_READER_HAS_CARD
};

struct serial_reader {
    struct serial_settings settings;
    struct gt_port port;
    struct line line;
    struct answer answer;
    struct t0_end t0;
    struct t1_end t1;
    bool is_powered;            /* the card has answered to reset */
    bool has_begun;             /* it talks `protocol` */
    int protocol;
    int64_t is_lost_until;      /* until then the slot counts as empty */
    bool was_open;              /* its tty was there */
    bool is_told;               /* why the tty can't be used was reported */
};

/* The functions that return text return NULL for success, or a few words that say why they failed.
 * These stay until the next call with this reader. No text has a byte of a command. */

/* Makes a reader by its DEVICENAME. Its tty is opened by the first look. */
const char *serial_reader_init(struct serial_reader *reader, const char *device);

/* Looks for the card. A tty that is gone is opened again if it is back. `fault` gets why the tty
 * can't be used, or NULL if it can, or if an earlier call has reported it. A card that is not there
 * any more loses its power. */
enum serial_reader_state serial_reader_look(struct serial_reader *reader, const char **fault);

/* Whether, in the last second, a command has failed or a look has seen no card. The card has lost
 * its state, so the reader shows an empty slot. Then each program sees that, and the next one
 * begins with a reset. */
bool serial_reader_is_lost(const struct serial_reader *reader);

/* Resets the card, and takes its answer. */
const char *serial_reader_power_up(struct serial_reader *reader);

/* Ends the session with the card, and wipes what was sent and received. */
void serial_reader_power_down(struct serial_reader *reader);

/* Continues with T=0 or T=1, by PPS if the card begins with the other one. With `wants_rate`, or if
 * the settings say so, it asks for the card's own rate. If the card talks that already, nothing
 * happens. */
const char *serial_reader_begin(struct serial_reader *reader, int protocol, bool wants_rate);

/* A result of the next function, as this very pointer: `room` is too small. The card has carried
 * out the command, and its answer is lost. */
extern const char SERIAL_READER_ROOM[];

/* Carries a TPDU at T=0, or a command at T=1, to the card, and its answer back. At T=0 61XX and
 * 6CXX are answers, and Le after data does not leave. A command that no TPDU can carry is a fault
 * before a byte is sent. After any other fault the card has no power. */
const char *serial_reader_transmit(struct serial_reader *reader, const uint8_t *command, size_t n,
                                   uint8_t *answer, size_t room, size_t *size);

/* Closes the tty. */
void serial_reader_close(struct serial_reader *reader);

#endif
