/* Signals that end a program with a tty, as Ctrl-C does. */
#ifndef SERIAL_SIGNALS_H
#define SERIAL_SIGNALS_H

#include "gt_port.h"

/* As `gt_port_open`, for the only port of a program. From then on each signal that ends the program
 * first puts back the earlier setting of the tty, except those that the parent process made it
 * ignore. The port must last as long as the program. */
const char *serial_signals_open(struct gt_port *port, const char *name, unsigned long baud);

#endif
