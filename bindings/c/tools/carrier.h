/* Carries a terminal's commands to a card in a reader, and the answers back. */
#ifndef CARRIER_H
#define CARRIER_H

#include "operation.h"
#include "reader.h"

#include <stdio.h>

struct carrier {
    struct reader *reader;
    bool is_by_apdus;       /* whole commands, or TPDUs */
    FILE *shown;            /* where TPDUs and commands are shown, or NULL */
    FILE *progress;         /* prints the progress of a put of many pieces, or NULL */
};

/* Shows the protocol and the level, if `shown` is not NULL. Returns NULL, or why that failed. */
const char *carrier_show_level(const struct carrier *carrier);

/* The `pass` of steps.h; `line` is a carrier. */
const char *carrier_pass(void *line, gt_terminal *terminal, const struct operation *operation);

#endif
