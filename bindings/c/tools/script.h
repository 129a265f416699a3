/* The operations to carry out, in order: those of the command line, or of the lines of a file. All
 * of them are read, and refused if one is bad, before there is a card. */
#ifndef SCRIPT_H
#define SCRIPT_H

#include "operation.h"

/* the most bytes of a file of operations, as of a script of card_trace */
#define SCRIPT_SIZE_LIMIT 1048576

struct script {
    struct step {
        size_t number;  /* of its line, or among the operations of the command line; from 1 */
        struct operation operation;
    } *steps;
    size_t count;
    const char *unit;   /* what the numbers count: "line" or "operation" */
};

/* Reads a script: from the file with this name (`-`: standard input), or from the words if `name`
 * is NULL. An operation of the command line has as many words as its first one requires. A file has
 * an operation in each line, and at least one. Empty lines, lines of spaces, and lines that begin
 * with # are skipped. Returns the exit status. Unless that is ALL_WELL there is no script, and
 * standard error says why: the line or the operation, and the reason. */
int script_read(struct script *script, const char *name, char *const *words, size_t count);

/* Frees the memory. */
void script_free(struct script *script);

#endif
