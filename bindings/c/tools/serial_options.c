#include "serial_options.h"

#include <string.h>

const char *const SERIAL_SIGNALS[] = { "cts", "dsr", "dcd", "none", "rts", "dtr" };
const char *const SERIAL_STATES[] = { "off", "on" };

struct line serial_options_line(const struct serial_options *options, struct gt_port *port,
                                enum line_end own)
{
    struct line line;
    memset(&line, 0, sizeof line);
    line.port = port;
    line.own = own;
    line.echo = options->has_echo ? LINE_TAKES_ECHO : LINE_HAS_NO_ECHO;
    line.baud = options->baud;
    line.slack = (int64_t)options->slack * 1000;
    line.late = (int64_t)options->quiet * 1000;
    line.trace = options->is_traced ? stdout : NULL;
    return line;
}
