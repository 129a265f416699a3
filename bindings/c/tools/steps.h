/* The steps of a script, which a terminal carries out one after another: what gt_pcsc and gt_serial
 * share. */
#ifndef STEPS_H
#define STEPS_H

#include "script.h"

/* What carries a terminal's characters or commands, and how it continues. */
struct steps {
    /* Passes what the operation in progress sends and receives, until it has its answer. Returns
     * NULL, or words that say what went wrong: then nothing is known of the card. */
    const char *(*pass)(void *line, gt_terminal *terminal, const struct operation *operation);
    void *line;         /* the first argument of `pass` */
    bool goes_on;       /* -k: continues after an answer that is not as requested */
    bool verifies;      /* --verify: reads each put back before the next step */
};

/* Carries out the steps of a script, and prints each answer. It stops at a fault, and without
 * `goes_on` at the first answer that is not 9000 or not what the step asks for. It sends nothing
 * twice, except what the exchange of a command repeats after 6CXX. Returns the exit status: if that
 * is FAULT, standard error says why, unless the status that was printed does. */
int steps_carry_out(const struct steps *steps, const struct script *script);

#endif
