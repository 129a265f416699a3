/* A card in a PC/SC reader: one connection, and one transaction from its beginning to its end. Only
 * this file, reader.c and waiting.c know PC/SC. */
#ifndef READER_H
#define READER_H

#include "pcsc.h"

#include <stdbool.h>
#include <stddef.h>
#include <stdint.h>
#include <stdio.h>

struct reader {
    SCARDCONTEXT context;
    SCARDHANDLE card;
    DWORD wanted;           /* the protocols that may be used */
    DWORD protocol;         /* the protocol in use */
    bool is_contactless;    /* the card has no contacts, by its answer to reset */
    bool has_context, is_connected, is_held;
};

/* Room for whatever a reader hands back: the answer to an extended command and one byte more. So
 * one that is too long is noticed. */
#define READER_ROOM 65539

/* Each of these returns NULL for success, or a few words that say why it failed. They stay until
 * the next call. */

/* Prints the names of all readers, a line each. */
const char *reader_list(FILE *out);

/* Connects to the card of a reader, and keeps all other programs from it. `name` is the reader's
 * whole name, or a part that no other name has; NULL is the only reader. `protocol` is 0, 1, or -1
 * for the choice of PC/SC. A card that uses the other protocol is reset unless another program is
 * connected. While another program has a transaction this waits, and says so; after `wait` seconds
 * it ends the process (waiting.h). Close the reader, whatever this returns. */
const char *reader_open(struct reader *reader, const char *name, int protocol, long wait);

/* The protocol in use, 0 or 1. */
int reader_protocol(const struct reader *reader);

/* Whether the reader takes whole commands: at T=1, and for a card without contacts. At T=0 it takes
 * TPDUs, unless it fetches 61XX by itself. */
bool reader_takes_apdus(const struct reader *reader);

/* Sends a TPDU or a command, and gets what the reader hands back: `length` bytes, at most
 * READER_ROOM. */
const char *reader_transmit(struct reader *reader, const uint8_t *sent, size_t n,
                            uint8_t answer[READER_ROOM], size_t *length);

/* Resets the card, so that nothing stays selected or pending, lets other programs use it, and frees
 * everything, even if some of that fails. Returns the first fault. */
const char *reader_close(struct reader *reader);

#endif
