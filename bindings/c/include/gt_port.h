/* A tty as the line of a smart card has it: 8 bits, a parity, 2 stop bits, and every character
 * unchanged. It is a part of libgalliumtoad.a, for Linux with each rate that a UART can divide, and
 * for other systems with termios with the rates that these have.
 *
 * Open a port, reset the card, receive its answer, send and receive, and close the port:
 * examples/answer_to_reset.c does that. What goes over the line is yours, or that of a handle of
 * galliumtoad.h, and so is when: a port keeps no guard time and no waiting time by itself.
 *
 * A program may have many ports. All that a port keeps is in its `struct gt_port`, one thread at a
 * time may use it, and nothing here catches a signal: `gt_port_put_back` is for the program's own
 * handler. A port is not proved, but tested. */
#ifndef GT_PORT_H
#define GT_PORT_H

#include <signal.h>
#include <stdbool.h>
#include <stddef.h>
#include <stdint.h>

#ifdef __cplusplus
extern "C" {
#endif

/* The most bytes of a tty's name and of a text, with their NUL, and of a system's settings of a
 * tty. */
#define GT_PORT_NAME_ROOM 256
#define GT_PORT_TEXT_ROOM 400
#define GT_PORT_SETTINGS_ROOM 96

/* The lines of a tty beside the two that carry characters. The tty reads the first three, and
 * drives the last two. */
enum gt_port_signal {
    GT_PORT_CTS,
    GT_PORT_DSR,
    GT_PORT_DCD,
    GT_PORT_NONE,
    GT_PORT_RTS,
    GT_PORT_DTR
};

/* Set `until`, if a time has to end all waits, and read `is_pseudo` and `name`. The other fields
 * are the port's own. */
struct gt_port {
    int fd;                     /* below 0: it is closed */
    bool is_pseudo;             /* it drops parity, and has no other lines */
    bool is_far;                /* it is the far end of a pseudo terminal, which has no settings */
    bool is_fresh;              /* a pseudo terminal just opened: that has reset its card */
    bool is_cut;                /* a mark of another parity is cut: no more can be read */
    int64_t until;              /* from then on nothing is read or written: GT_PORT_IS_LATE. A wait
                                 * in progress ends within a second */
    unsigned long baud;         /* the rate of a reset */
    char name[GT_PORT_NAME_ROOM];
    char told[GT_PORT_TEXT_ROOM]; /* the last text that a function below returned */
    volatile sig_atomic_t is_changed; /* `before` has the earlier settings of the tty */
    unsigned char before[GT_PORT_SETTINGS_ROOM];
};

/* What became of a character. */
enum gt_port_result {
    GT_PORT_IS_WELL,
    GT_PORT_IS_SILENT,          /* the time ran out */
    GT_PORT_IS_LATE,            /* so did the port's `until` */
    GT_PORT_IS_GONE,            /* the adapter is unplugged, or the far end is closed */
    GT_PORT_IS_CUT              /* the mark of another parity came without its character */
};

/* Makes a closed port. */
void gt_port_init(struct gt_port *port);

/* Returns the present time, by a clock that nobody sets, in microseconds. All times here are in
 * these. */
int64_t gt_port_now(void);

/* Sleeps until then. */
void gt_port_sleep_until(int64_t then);

/* The functions that return text return NULL for success, or a few words that say why they failed.
 * These stay until the next call with this port. */

/* Opens a tty without an `until`, locks it, and sets it to this rate and even parity. If another
 * port has locked it, the text says which process has it. `gt_port_close` puts back the earlier
 * setting. A port that fails to open is closed again. A port that is open has to be closed first.
 * */
const char *gt_port_open(struct gt_port *port, const char *name, unsigned long baud);

/* Resets the card by GT_PORT_RTS or GT_PORT_DTR, which holds it in reset while it has the state
 * `held`, and drops what was received before. A pseudo terminal has no such line: it is closed and
 * opened again, unless it was opened for this reset. */
const char *gt_port_reset(struct gt_port *port, enum gt_port_signal signal, bool held);

/* Sets rate and parity. A tty that refuses, or takes another setting than this, is at fault. A
 * pseudo terminal has no parity. */
const char *gt_port_set(struct gt_port *port, unsigned long baud, bool is_odd);

/* Looks whether a line is on. */
const char *gt_port_look(struct gt_port *port, enum gt_port_signal signal, bool *is_on);

/* Whether the tty is gone: the adapter is unplugged, or the far end of a pseudo terminal is
 * closed. */
bool gt_port_is_gone(const struct gt_port *port);

/* Drops the characters that were received and not read. */
void gt_port_drop(struct gt_port *port);

/* Waits for a character until then, at the latest. `has_other_parity` says whether it came with
 * another parity than the one set, or as no character at all. After GT_PORT_IS_CUT each later call
 * returns that too, until `gt_port_drop`. */
enum gt_port_result gt_port_receive(struct gt_port *port, uint8_t *byte, bool *has_other_parity,
                                    int64_t then);

/* Hands `n` characters out, at least one, waiting until then for room for each. */
enum gt_port_result gt_port_send(const struct gt_port *port, const uint8_t *bytes, size_t n,
                                 int64_t then);

/* Puts back the earlier setting of the tty, and lets other programs open it. A signal handler may
 * call it, also while any other call with this port is in progress. */
void gt_port_put_back(struct gt_port *port);

/* The same, and closes it. Does nothing for a closed port. */
void gt_port_close(struct gt_port *port);

#ifdef __cplusplus
}
#endif

#endif
