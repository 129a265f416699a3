/* Two ports of one program (include/gt_port.h), each at a pseudo terminal: neither changes what the
 * other keeps, and no signal is caught. */
#define _XOPEN_SOURCE 700
#define _DEFAULT_SOURCE

#include "check.h"
#include "gt_port.h"

#include <fcntl.h>
#include <stdlib.h>
#include <termios.h>
#include <unistd.h>

/* how long a byte may take, in microseconds */
#define A_WHILE 10000000

/* A pseudo terminal: the far end, and the name of the near one. */
struct pair {
    int far;
    char name[60];
};

static struct pair make_pair(void)
{
    struct pair pair;
    pair.far = posix_openpt(O_RDWR | O_NOCTTY);
    if (pair.far < 0 || grantpt(pair.far) != 0 || unlockpt(pair.far) != 0)
        abort();
    snprintf(pair.name, sizeof pair.name, "%s", ptsname(pair.far));
    return pair;
}

/* Whether the near end has a port's settings: characters unchanged, not by lines. */
static int is_raw(const struct pair *pair)
{
    struct termios found;
    const int near = open(pair->name, O_RDWR | O_NOCTTY);
    if (near < 0 || tcgetattr(near, &found) != 0)
        abort();
    close(near);
    return (found.c_lflag & (tcflag_t)(ICANON | ECHO)) == 0;
}

static void no_signal_is_caught(void)
{
    static const int NUMBERS[] = { SIGHUP, SIGINT, SIGQUIT, SIGTERM, SIGPIPE };
    struct sigaction found;
    size_t i;
    for (i = 0; i < sizeof NUMBERS / sizeof NUMBERS[0]; i++) {
        CHECK(sigaction(NUMBERS[i], NULL, &found), 0);
        CHECK(found.sa_handler == SIG_DFL, 1);
    }
}

/* Each port receives what its own far end sends, and each far end what its port sends. */
static void carries(struct gt_port *port, const struct pair *pair, uint8_t byte)
{
    const int64_t then = gt_port_now() + A_WHILE;
    uint8_t found = 0;
    bool has_other_parity = true;
    CHECK(gt_port_send(port, &byte, 1, then), GT_PORT_IS_WELL);
    CHECK(read(pair->far, &found, 1), 1);
    CHECK(found, byte);
    byte ^= 0xFF;
    CHECK(write(pair->far, &byte, 1), 1);
    CHECK(gt_port_receive(port, &found, &has_other_parity, then), GT_PORT_IS_WELL);
    CHECK(found, byte);
    CHECK(has_other_parity, 0);
    CHECK(gt_port_receive(port, &found, &has_other_parity, 0), GT_PORT_IS_SILENT);
}

/* A reset leaves the other port as it is. A pseudo terminal that was just opened is not opened
 * again. */
static void reset(struct gt_port *port, const struct pair *other)
{
    uint8_t found;
    bool is_odd;
    CHECK(gt_port_reset(port, GT_PORT_RTS, true) == NULL, 1);
    CHECK(port->is_fresh, 0);
    port->until = gt_port_now() + A_WHILE;
    CHECK(gt_port_reset(port, GT_PORT_RTS, true) == NULL, 1);
    CHECK(port->fd >= 0, 1);
    CHECK(port->until < INT64_MAX, 1);
    CHECK(gt_port_receive(port, &found, &is_odd, 0), GT_PORT_IS_SILENT);
    CHECK(is_raw(other), 1);
    port->until = gt_port_now();
    CHECK(gt_port_receive(port, &found, &is_odd, gt_port_now() + A_WHILE), GT_PORT_IS_LATE);
    port->until = INT64_MAX;
}

/* The text of a fault stays with its port. */
static void tells(struct gt_port *one, const char *name)
{
    static const char WHAT[] = "the tty cannot be opened: '/dev/none': No such file or directory";
    char held[200];
    struct gt_port third;
    const char *fault = gt_port_open(&third, "/dev/none", 9600), *second;
    CHECK(fault != NULL && strcmp(fault, WHAT) == 0, 1);
    CHECK(third.fd, -1);
    snprintf(held, sizeof held, "process %ld has '%s'", (long)getpid(), name);
    second = gt_port_look(one, GT_PORT_CTS, &(bool){ false });
    CHECK(second != NULL && strstr(second, "the tty does not return its CTS: ") == second, 1);
    CHECK(strcmp(fault, WHAT), 0);
#ifndef GT_PORT_BY_TERMIOS
    /* only Linux lists who has locked a tty, this process too */
    fault = gt_port_open(&third, name, 9600);
    CHECK(fault != NULL && strcmp(fault, held) == 0, 1);
#endif
    gt_port_close(&third);
}

static void long_name(void)
{
    char name[GT_PORT_NAME_ROOM + 1];
    struct gt_port port;
    const char *fault;
    memset(name, 'x', sizeof name - 1);
    name[sizeof name - 1] = '\0';
    fault = gt_port_open(&port, name, 9600);
    CHECK(fault != NULL && strstr(fault, "the tty's name is too long: 'xxx") == fault, 1);
    name[sizeof name - 2] = '\0';
    fault = gt_port_open(&port, name, 9600);
    CHECK(fault != NULL && strstr(fault, "the tty cannot be opened: 'xxx") == fault, 1);
}

/* With termios alone a port has the rates of the system. */
static void rates(struct gt_port *port)
{
    CHECK(gt_port_set(port, 19200, false) == NULL, 1);
    CHECK(gt_port_set(port, 19200, false) == NULL, 1);
    CHECK(gt_port_set(port, 115200, true) == NULL, 1);
#ifdef GT_PORT_BY_TERMIOS
    CHECK(strcmp(gt_port_set(port, 16129, false), "the tty does not run at 16129 baud"), 0);
#else
    CHECK(gt_port_set(port, 16129, false) == NULL, 1);
#endif
}

int main(void)
{
    struct pair first = make_pair(), second = make_pair();
    struct gt_port one, other;
    CHECK(is_raw(&first), 0);
    CHECK(gt_port_open(&one, first.name, 9600) == NULL, 1);
    CHECK(gt_port_open(&other, second.name, 9600) == NULL, 1);
    no_signal_is_caught();
    /* the calls after this one close a tty, which ends each lock of the process on it */
    tells(&one, second.name);
    CHECK(is_raw(&first) && is_raw(&second), 1);
    carries(&one, &first, 0xA5);
    carries(&other, &second, 0x00);
    carries(&one, &first, 0xFF);
    rates(&one);
    long_name();
    reset(&one, &second);
    gt_port_close(&one);
    CHECK(is_raw(&first), 0);
    CHECK(is_raw(&second), 1);
    carries(&other, &second, 0x11);
    CHECK(gt_port_is_gone(&other), 0);
    close(second.far);
    CHECK(gt_port_is_gone(&other), 1);
    gt_port_close(&other);
    gt_port_close(&other);
    close(first.far);
    return check_result("ports");
}
