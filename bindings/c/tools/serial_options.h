/* The options of command lines that gt_serial and serial_card share. A reader for pcscd has them as
 * settings. */
#ifndef SERIAL_OPTIONS_H
#define SERIAL_OPTIONS_H

#include "program.h"
#include "serial_line.h"

/* The values of numbers without their options, and their limits. */
enum {
    SERIAL_BAUD = 9600, SERIAL_BAUD_LEAST = 1200, SERIAL_BAUD_MOST = 1000000,
    SERIAL_SLACK = 200, SERIAL_SLACK_MOST = 60000,
    SERIAL_QUIET_MOST = 1000,
    SERIAL_PATIENCE = 600, SERIAL_PATIENCE_MOST = 86400
};

struct serial_options {
    bool is_traced;         /* -v */
    bool has_echo;          /* not --no-echo */
    int reset;              /* --reset: an enum gt_port_signal */
    int is_held_by_on;      /* not --held-by off */
    unsigned long baud;     /* --baud */
    unsigned long slack;    /* --slack, in milliseconds */
    unsigned long quiet;    /* --quiet, which gt_serial alone has, in milliseconds */
};

/* Their values on a command line without options. */
#define SERIAL_OPTIONS(reset) { false, true, reset, true, SERIAL_BAUD, SERIAL_SLACK, LINE_LATE }

/* The names of signals and states, in the order of their numbers. */
extern const char *const SERIAL_SIGNALS[], *const SERIAL_STATES[];

/* Their rows, if --reset takes these signals. */
#define SERIAL_ROWS(its, first, last) \
    { "-v", OPTION_ON, &its.is_traced, 0, 0, NO_NAMES }, \
    { "--no-echo", OPTION_OFF, &its.has_echo, 0, 0, NO_NAMES }, \
    { "--reset", OPTION_NAME, &its.reset, first, last, SERIAL_SIGNALS, \
      " is not a line for '--reset'" }, \
    { "--held-by", OPTION_NAME, &its.is_held_by_on, 0, 1, SERIAL_STATES, \
      " is neither 'on' nor 'off'" }, \
    { "--baud", OPTION_NUMBER, &its.baud, SERIAL_BAUD_LEAST, SERIAL_BAUD_MOST, NO_NAMES }, \
    { "--slack", OPTION_NUMBER, &its.slack, 0, SERIAL_SLACK_MOST, NO_NAMES }, \
    { NULL, OPTION_ON, NULL, 0, 0, NO_NAMES }

/* The line of one end, as the options have it, over this port. */
struct line serial_options_line(const struct serial_options *options, struct gt_port *port,
                                enum line_end own);

#endif
