#define _XOPEN_SOURCE 700

#include "serial_signals.h"

#include <string.h>

/* the program's port, or NULL */
static struct gt_port *volatile own;

static void put_back_and_end(int number)
{
    gt_port_put_back(own);
    raise(number);
}

static void catch_signals(void)
{
    static const int NUMBERS[] = { SIGHUP, SIGINT, SIGQUIT, SIGTERM, SIGPIPE };
    size_t i;
    for (i = 0; i < sizeof NUMBERS / sizeof NUMBERS[0]; i++) {
        struct sigaction action, old;
        memset(&action, 0, sizeof action);
        action.sa_handler = put_back_and_end;
        action.sa_flags = (int)(SA_RESETHAND | SA_NODEFER);
        if (sigaction(NUMBERS[i], &action, &old) == 0 && old.sa_handler == SIG_IGN)
            sigaction(NUMBERS[i], &old, NULL);
    }
}

/* The signals are caught before the tty changes. */
const char *serial_signals_open(struct gt_port *port, const char *name, unsigned long baud)
{
    gt_port_init(port);
    own = port;
    catch_signals();
    return gt_port_open(port, name, baud);
}
