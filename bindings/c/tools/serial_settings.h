/* The settings of a reader for pcscd, which its DEVICENAME holds: "TTY:NAME=VALUE,..". */
#ifndef SERIAL_SETTINGS_H
#define SERIAL_SETTINGS_H

#include "gt_port.h"
#include "text.h"

struct serial_settings {
    char tty[GT_PORT_NAME_ROOM];
    /* each in the order of its names, or a number: serial_settings.c has the table */
    unsigned long reset, held_by, echo, presence, present_by, pps;
    unsigned long baud, clock, slack, quiet, patience;
};

/* Reads the text of a DEVICENAME. The settings begin after its last colon, if it has one; what is
 * not set has its initial value. Returns NULL, or a few words that name the wrong word; they are in
 * `told`. */
const char *serial_settings_read(struct serial_settings *settings, const char *text,
                                 char told[TEXT_ROOM]);

#endif
