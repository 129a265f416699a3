#define _XOPEN_SOURCE 700
#define _DEFAULT_SOURCE

#include "serial_pty.h"
#include "text.h"

#include <errno.h>
#include <fcntl.h>
#include <stdlib.h>
#include <string.h>
#include <sys/inotify.h>
#include <termios.h>
#include <unistd.h>

/* how often a far end checks whether the near one is open, in microseconds */
#define LOOKS_EVERY 10000

static const char *tell_none(struct serial_pty *pty)
{
    return text_put(pty->port.told, "no pseudo terminal: %s", strerror(errno));
}

/* Sets the near end to pass all characters on unchanged, and drops those on the way. */
static const char *clear_near_end(struct serial_pty *pty)
{
    struct termios settings;
    const int near = open(pty->port.name, O_RDWR | O_NOCTTY | O_NONBLOCK);
    bool is_well;
    if (near < 0)
        return tell_none(pty);
    memset(&settings, 0, sizeof settings);
    settings.c_cflag = CS8 | CSTOPB | CREAD | CLOCAL;
    settings.c_cc[VMIN] = 1;
    cfsetispeed(&settings, B9600);
    cfsetospeed(&settings, B9600);
    is_well = tcsetattr(near, TCSANOW, &settings) == 0 && tcflush(near, TCIOFLUSH) == 0;
    close(near);
    gt_port_drop(&pty->port);
    return is_well ? NULL : tell_none(pty);
}

/* Gets the near end's name, and watches it. */
static const char *begin_watch(struct serial_pty *pty)
{
    const char *name = NULL;
    if (grantpt(pty->port.fd) == 0 && unlockpt(pty->port.fd) == 0)
        name = ptsname(pty->port.fd);
    if (name == NULL)
        return tell_none(pty);
    if (strlen(name) >= sizeof pty->port.name)
        return "no pseudo terminal: its name is too long";
    strcpy(pty->port.name, name);
    pty->watch = inotify_init1(IN_NONBLOCK);
    if (inotify_add_watch(pty->watch, pty->port.name, IN_CLOSE) < 0)
        return tell_none(pty);
    return clear_near_end(pty);
}

const char *serial_pty_make(struct serial_pty *pty)
{
    const char *fault;
    gt_port_init(&pty->port);
    pty->watch = -1;
    pty->port.is_pseudo = pty->port.is_far = true;
    pty->port.fd = posix_openpt(O_RDWR | O_NOCTTY | O_NONBLOCK);
    fault = pty->port.fd < 0 ? tell_none(pty) : begin_watch(pty);
    if (fault != NULL)
        serial_pty_close(pty);
    return fault;
}

/* Whether somebody has closed the near end since the last call. It may be open again by now. */
static bool was_closed(const struct serial_pty *pty)
{
    struct inotify_event event;
    bool was = false;
    while (read(pty->watch, &event, sizeof event) > 0)
        was = true;
    return was;
}

bool serial_pty_is_closed(const struct serial_pty *pty)
{
    return was_closed(pty) || gt_port_is_gone(&pty->port);
}

void serial_pty_await_closing(const struct serial_pty *pty)
{
    while (!serial_pty_is_closed(pty))
        gt_port_sleep_until(gt_port_now() + LOOKS_EVERY);
}

const char *serial_pty_await_opening(struct serial_pty *pty)
{
    const char *fault = clear_near_end(pty);
    while (fault == NULL && serial_pty_is_closed(pty))
        gt_port_sleep_until(gt_port_now() + LOOKS_EVERY);
    return fault;
}

void serial_pty_close(struct serial_pty *pty)
{
    gt_port_close(&pty->port);
    if (pty->watch >= 0)
        close(pty->watch);
    pty->watch = -1;
}
