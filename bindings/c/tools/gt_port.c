#define _XOPEN_SOURCE 700
#define _DEFAULT_SOURCE

#include "gt_port.h"
#include "gt_port_system.h"
#include "text.h"

#include <errno.h>
#include <fcntl.h>
#include <poll.h>
#include <stdio.h>
#include <string.h>
#include <sys/ioctl.h>
#include <sys/stat.h>
#include <time.h>
#include <unistd.h>

#define MILLISECOND 1000
#define SECOND 1000000

/* how long the bytes after the first of a mark may take, which come with it */
#define MARK_LASTS (20 * MILLISECOND)

/* how long the line is held for a reset: 400 cycles are required, and slow readers take longer to
 * pass them on. And how long a pseudo terminal is closed: the program at its far end has to see
 * that */
#define IS_HELD_FOR (50 * MILLISECOND)
#define IS_CLOSED_FOR (200 * MILLISECOND)

/* the settings for characters on the line */
static const tcflag_t FORM = CSIZE | CSTOPB | PARENB | PARODD;

int64_t gt_port_now(void)
{
    struct timespec now;
    clock_gettime(CLOCK_MONOTONIC, &now);
    return (int64_t)now.tv_sec * SECOND + now.tv_nsec / 1000;
}

void gt_port_sleep_until(int64_t then)
{
    int64_t left;
    while ((left = then - gt_port_now()) > 0) {
        struct timespec pause;
        pause.tv_sec = (time_t)(left / SECOND);
        pause.tv_nsec = (long)(left % SECOND * 1000);
        nanosleep(&pause, NULL);
    }
}

void gt_port_init(struct gt_port *port)
{
    memset(port, 0, sizeof *port);
    port->until = INT64_MAX;
    port->fd = -1;
}

/* Setting a tty is only a system call, so a signal handler may do it. */
void gt_port_put_back(struct gt_port *port)
{
    system_settings before;
    if (!port->is_changed)
        return;
    memcpy(&before, port->before, sizeof before);
    system_put(port->fd, &before);
    ioctl(port->fd, TIOCNXCL);
    port->is_changed = 0;
}

/* The text of `errno`. */
static const char *error_text(char place[TEXT_ROOM])
{
    const int number = errno;
    if (strerror_r(number, place, TEXT_ROOM) != 0)
        text_put(place, "error %d", number);
    return place;
}

static const char *tell_error(struct gt_port *port, const char *what)
{
    char why[TEXT_ROOM];
    return text_put(port->told, "%s: %s", what, error_text(why));
}

/* Characters unchanged, one by one. A tty with parity marks those with a wrong parity (FF 00 before
 * them), and then FF itself is FF FF. */
static void make_settings(system_settings *settings, bool has_parity, bool is_odd)
{
    memset(settings, 0, sizeof *settings);
    settings->c_cflag = CS8 | CSTOPB | CREAD | CLOCAL;
    if (has_parity) {
        settings->c_iflag = INPCK | PARMRK;
        settings->c_cflag |= PARENB | (is_odd ? PARODD : 0);
    }
    settings->c_cc[VMIN] = 1;
}

/* A UART divides a clock, so it may be a little off: here by one in fifty. */
static bool is_near(unsigned long found, unsigned long wanted)
{
    const unsigned long more = found > wanted ? found - wanted : wanted - found;
    return more <= wanted / 50;
}

static const char *tell_rate(struct gt_port *port, unsigned long baud)
{
    return text_put(port->told, "the tty does not run at %lu baud", baud);
}

const char *gt_port_set(struct gt_port *port, unsigned long baud, bool is_odd)
{
    system_settings wanted, found;
    if (port->is_far)
        return NULL;
    make_settings(&wanted, !port->is_pseudo, is_odd);
    if (!system_set_rate(&wanted, baud))
        return tell_rate(port, baud);
    if (system_put(port->fd, &wanted) != 0 || system_get(port->fd, &found) != 0)
        return tell_error(port, "the tty refuses its settings");
    if (((found.c_cflag ^ wanted.c_cflag) & FORM) != 0)
        return text_put(port->told, "the tty does not take 8 bits, %s parity and 2 stop bits",
                        is_odd ? "odd" : "even");
    if (is_near(system_rate_in(&found), baud) && is_near(system_rate_out(&found), baud))
        return NULL;
    return tell_rate(port, baud);
}

static const char *tell_holder(struct gt_port *port, long process)
{
    return text_put_quoted(port->told, text_put(port->told, "process %ld has ", process),
                           port->name, "");
}

/* Locks the tty against another port. The lock names the process. */
static const char *lock(struct gt_port *port)
{
    struct flock whole;
    memset(&whole, 0, sizeof whole);
    whole.l_type = F_WRLCK;
    whole.l_whence = SEEK_SET;
    if (fcntl(port->fd, F_SETLK, &whole) == 0)
        return NULL;
    if (fcntl(port->fd, F_GETLK, &whole) == 0 && whole.l_type != F_UNLCK && whole.l_pid > 0)
        return tell_holder(port, whole.l_pid);
    return tell_error(port, "the tty cannot be locked");
}

/* Keeps all other programs out too. A pseudo terminal would stay so if this one is killed. */
static const char *keep_for_itself(struct gt_port *port)
{
    return port->is_pseudo || ioctl(port->fd, TIOCEXCL) == 0
        ? NULL
        : tell_error(port, "the tty cannot be locked");
}

/* Opens the tty, unless another port has it. */
static const char *open_tty(struct gt_port *port)
{
    const long holder = system_holder_of(port->name);
    char why[TEXT_ROOM];
    if (holder > 0)
        return tell_holder(port, holder);
    port->fd = open(port->name, O_RDWR | O_NOCTTY | O_NONBLOCK | O_CLOEXEC);
    if (port->fd < 0)
        return text_put_fault(port->told, "the tty cannot be opened", port->name,
                              error_text(why));
    port->is_pseudo = port->is_fresh = system_is_pseudo(port->fd, port->name);
    return isatty(port->fd) ? lock(port)
                            : text_put_quoted(port->told, "", port->name, " is not a tty");
}

/* Keeps the earlier settings, and sets the tty. */
static const char *take_over(struct gt_port *port)
{
    system_settings before;
    const char *fault;
    if (system_get(port->fd, &before) != 0)
        return tell_error(port, "the tty does not return its settings");
    memcpy(port->before, &before, sizeof before);
    port->is_changed = 1;
    fault = keep_for_itself(port);
    return fault == NULL ? gt_port_set(port, port->baud, false) : fault;
}

/* Opens the tty that the port names. */
static const char *open_and_set(struct gt_port *port)
{
    const char *fault = open_tty(port);
    if (fault == NULL)
        fault = take_over(port);
    if (fault != NULL)
        gt_port_close(port);
    return fault;
}

const char *gt_port_open(struct gt_port *port, const char *name, unsigned long baud)
{
    gt_port_init(port);
    port->baud = baud;
    if (strlen(name) >= sizeof port->name)
        return text_put_quoted(port->told, "the tty's name is too long: ", name, "");
    strcpy(port->name, name);
    return open_and_set(port);
}

/* The names of the lines, and the system's bits for them. */
static const struct {
    const char *name;
    int bit;
} SIGNALS[] = {
    { "CTS", TIOCM_CTS },
    { "DSR", TIOCM_DSR },
    { "DCD", TIOCM_CAR },
    { "", 0 },
    { "RTS", TIOCM_RTS },
    { "DTR", TIOCM_DTR },
};

static const char *tell_signal(struct gt_port *port, const char *what,
                               enum gt_port_signal signal)
{
    char text[TEXT_ROOM];
    return tell_error(port, text_put(text, "the tty does not %s its %s", what,
                                     SIGNALS[signal].name));
}

const char *gt_port_look(struct gt_port *port, enum gt_port_signal signal, bool *is_on)
{
    int bits = 0;
    if (ioctl(port->fd, TIOCMGET, &bits) != 0)
        return tell_signal(port, "return", signal);
    *is_on = (bits & SIGNALS[signal].bit) != 0;
    return NULL;
}

/* Switches RTS or DTR, and checks that it is so. */
static const char *drive(struct gt_port *port, enum gt_port_signal signal, bool is_on)
{
    int bit = SIGNALS[signal].bit;
    bool found = !is_on;
    const char *fault = NULL;
    if (ioctl(port->fd, is_on ? TIOCMBIS : TIOCMBIC, &bit) != 0)
        return tell_signal(port, "set", signal);
    fault = gt_port_look(port, signal, &found);
    if (fault != NULL || found == is_on)
        return fault;
    return text_put(port->told, "the tty does not set its %s", SIGNALS[signal].name);
}

/* Resets the card at a pseudo terminal. */
static const char *reset_pseudo(struct gt_port *port)
{
    const char *fault = NULL;
    if (!port->is_fresh) {
        gt_port_close(port);
        gt_port_sleep_until(gt_port_now() + IS_CLOSED_FOR);
        fault = open_and_set(port);
    }
    port->is_fresh = port->is_cut = false;
    return fault;
}

const char *gt_port_reset(struct gt_port *port, enum gt_port_signal signal, bool held)
{
    const char *fault;
    if (port->is_pseudo)
        return reset_pseudo(port);
    fault = drive(port, signal, held);
    if (fault != NULL)
        return fault;
    gt_port_sleep_until(gt_port_now() + IS_HELD_FOR);
    gt_port_drop(port);
    return drive(port, signal, !held);
}

bool gt_port_is_gone(const struct gt_port *port)
{
    struct pollfd look = { 0, 0, 0 };
    look.fd = port->fd;
    return poll(&look, 1, 0) > 0;
}

void gt_port_drop(struct gt_port *port)
{
    port->is_cut = false;
    system_flush(port->fd, TCIFLUSH);
}

/* Waits for one of these events until then; at most a second at a time, so that the number of
 * milliseconds fits. For a line that has closed the call that follows reports it. */
static enum gt_port_result await(const struct gt_port *port, short events, int64_t then)
{
    for (;;) {
        const int64_t now = gt_port_now();
        const int64_t left = then - now;
        const int64_t most = left < SECOND ? left : SECOND;
        struct pollfd wait = { 0, 0, 0 };
        int ready;
        if (now >= port->until)
            return GT_PORT_IS_LATE;
        wait.fd = port->fd;
        wait.events = events;
        ready = poll(&wait, 1, most > 0 ? (int)((most + MILLISECOND - 1) / MILLISECOND) : 0);
        if (ready > 0)
            return GT_PORT_IS_WELL;
        if (ready < 0 && errno != EINTR)
            return GT_PORT_IS_GONE;
        if (left <= 0)
            return GT_PORT_IS_SILENT;
    }
}

/* The result of a read or a write that moved this many. */
static enum gt_port_result result_of(ssize_t n)
{
    if (n < 0 && (errno == EINTR || errno == EAGAIN))
        return GT_PORT_IS_SILENT;
    return n > 0 ? GT_PORT_IS_WELL : GT_PORT_IS_GONE;
}

static enum gt_port_result read_byte(const struct gt_port *port, uint8_t *byte, int64_t then)
{
    enum gt_port_result result;
    do {
        result = await(port, POLLIN, then);
        if (result == GT_PORT_IS_WELL)
            result = result_of(read(port->fd, byte, 1));
    } while (result == GT_PORT_IS_SILENT && gt_port_now() < then);
    return result;
}

enum gt_port_result gt_port_receive(struct gt_port *port, uint8_t *byte, bool *has_other_parity,
                                    int64_t then)
{
    enum gt_port_result result = port->is_cut ? GT_PORT_IS_CUT : read_byte(port, byte, then);
    *has_other_parity = false;
    if (result != GT_PORT_IS_WELL || port->is_pseudo || *byte != 0xFF)
        return result;
    result = read_byte(port, byte, gt_port_now() + MARK_LASTS);
    if (result == GT_PORT_IS_WELL && *byte != 0xFF) {
        *has_other_parity = true;
        result = read_byte(port, byte, gt_port_now() + MARK_LASTS);
    }
    port->is_cut = result == GT_PORT_IS_SILENT;
    return port->is_cut ? GT_PORT_IS_CUT : result;
}

/* Hands out as many as there is room for. */
static enum gt_port_result write_some(const struct gt_port *port, const uint8_t *bytes, size_t n,
                                      size_t *gone, int64_t then)
{
    enum gt_port_result result = await(port, POLLOUT, then);
    if (result == GT_PORT_IS_WELL) {
        const ssize_t moved = write(port->fd, bytes + *gone, n - *gone);
        result = result_of(moved);
        if (result == GT_PORT_IS_WELL)
            *gone += (size_t)moved;
    }
    return result;
}

enum gt_port_result gt_port_send(const struct gt_port *port, const uint8_t *bytes, size_t n,
                                 int64_t then)
{
    enum gt_port_result result;
    size_t gone = 0;
    do
        result = write_some(port, bytes, n, &gone, then);
    while (gone < n
           && (result == GT_PORT_IS_WELL || (result == GT_PORT_IS_SILENT && gt_port_now() < then)));
    return result;
}

/* What a tty has not sent is dropped: closing it would wait for that. */
void gt_port_close(struct gt_port *port)
{
    if (port->fd < 0)
        return;
    if (!port->is_pseudo && port->is_changed)
        system_flush(port->fd, TCOFLUSH);
    gt_port_put_back(port);
    close(port->fd);
    port->fd = -1;
}
