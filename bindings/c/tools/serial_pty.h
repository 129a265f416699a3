/* A pseudo terminal that this program makes, and whose far end is a port of it: a card's line. Only
 * Linux reports who closes the near end. */
#ifndef SERIAL_PTY_H
#define SERIAL_PTY_H

#include "gt_port.h"

struct serial_pty {
    struct gt_port port;        /* the far end; its `name` is that of the near one */
    int watch;                  /* reports when the near one is closed */
};

/* Makes a pseudo terminal. The text stays until the next call with its port. `gt_port_close` and
 * `close` of the watch end it. */
const char *serial_pty_make(struct serial_pty *pty);

/* Whether the near end is closed, or somebody has closed it since the last call. The second waits
 * until that is so. */
bool serial_pty_is_closed(const struct serial_pty *pty);
void serial_pty_await_closing(const struct serial_pty *pty);

/* Clears what was left on the way, and waits until the near end is open: that is the reset of a
 * card at the far one. */
const char *serial_pty_await_opening(struct serial_pty *pty);

/* Closes it. */
void serial_pty_close(struct serial_pty *pty);

#endif
