/* A terminal and a card of data objects written by hand in C: two state machines that hand
 * characters out and take them. They have duties of the library: they refuse a handle that holds
 * nothing, clear the received data after each TPDU, and wipe values before they free them. They
 * have no plans, and test no pointer for NULL.
 *
 * They pass single characters or buffers. With BY_CHARACTERS they pass single characters alone,
 * faster: they keep the place in a run of data. */
#ifndef ENDS_BY_HAND_H
#define ENDS_BY_HAND_H

#include <stdbool.h>
#include <stddef.h>
#include <stdint.h>

enum {
    VALUE_LIMIT = 8192,
    RESPONSE_LIMIT = 16384,
    ENTRY_LIMIT = 64,
    PIECE_LIMIT = 255,
    AID_LEAST = 5,
    AID_LIMIT = 16
};

enum turn { LISTENS, SENDS, DONE };

enum fault {
    NO_FAULT,
    BAD_PROCEDURE,
    TOO_LONG,
    NOT_LISTENING,
    AFTER_END,
    STALLED,
    OUT_OF_MEMORY,
    EMPTY
};

/* The progress of a TPDU at the terminal. */
enum host_stage { HOST_OPENING, HOST_AWAITING, HOST_MOVING, HOST_SECOND_STATUS, HOST_ENDED };

/* A terminal with an operation, which takes all its memory at its start. */
struct terminal {
    enum host_stage stage;
    uint8_t header[5];          /* CLA INS P1 P2 P3 */
    size_t sent;                /* characters of the header */
    size_t moved, until;        /* data characters, and where they stop moving */
    uint8_t sw1, sw2;
    bool asks;                  /* data come from the card */
    size_t wanted;              /* the number that the command asks for: 256 is all, 0 none */
    bool fetches, repeats;
    size_t before;              /* what was gathered before the GET RESPONSE in progress */
    uint8_t *content;           /* the data that go to the card, over all pieces */
    size_t size, from, piece;   /* of all these, those sent, and those of this command */
    uint8_t *response;
    size_t gathered;
    size_t capacity;            /* of content */
#ifdef BY_CHARACTERS
    /* the rest of the data that move in one run: places, and how many characters */
    const uint8_t *out;
    uint8_t *in;
    size_t outs, ins;
#endif
    bool live;                  /* it is in use */
};

void terminal_new(struct terminal *terminal);
enum fault terminal_select(struct terminal *terminal, const uint8_t *aid, size_t n);
enum fault terminal_get(struct terminal *terminal, uint16_t tag);
enum fault terminal_put(struct terminal *terminal, uint16_t tag, const uint8_t *value, size_t n);

enum turn terminal_next(struct terminal *terminal, uint8_t *byte);
enum fault terminal_take(struct terminal *terminal, uint8_t byte);

/* The status of an operation that has ended, and its data, if there is room for them. */
uint16_t terminal_answer(const struct terminal *terminal, uint8_t *data, size_t room, size_t *len);

void terminal_free(struct terminal *terminal);

struct entry {
    uint16_t tag;               /* 0 if the place is free */
    bool locked;
    size_t size;
    uint8_t *value;
};

/* Bytes of its own and then a value, with the number sent. */
struct response {
    uint8_t front[20];
    size_t len, sent;
    const struct entry *entry;  /* or NULL */
};

/* The progress of a TPDU at the card. */
enum card_stage { CARD_OPENING, CARD_RECEIVING, CARD_SENDING, CARD_SECOND_STATUS };

/* The effect of the second status character on the card. */
enum outcome { LEAVES, SELECTS, JOINS, STORES };

/* A card with one application, whose objects are found by a hash of their tags. */
struct card {
    uint8_t aid[AID_LIMIT];
    size_t aid_size;
    struct entry entries[2 * ENTRY_LIMIT];
    size_t entry_count;
    bool is_selected;
    enum card_stage stage;
    uint8_t opening[5];
    size_t taken, moved;
    uint8_t came[PIECE_LIMIT];
    bool chains;
    uint8_t chain[4];           /* the header of the chain that is pending */
    uint8_t chained[VALUE_LIMIT];
    size_t chained_size;
    bool has_response;          /* one is pending */
    struct response response, sends;
    enum outcome outcome;
    bool leaves_response;       /* `sends` is pending after this TPDU */
    uint8_t sw1, sw2;
    uint16_t stored_tag;
    uint8_t *stored;
#ifdef BY_CHARACTERS
    const uint8_t *out;         /* as of a terminal */
    uint8_t *in;
    size_t outs, ins;
#endif
    bool live;
};

void card_begin(struct card *card, const uint8_t *aid, size_t n);
enum fault card_object(struct card *card, uint16_t tag, const uint8_t *value, size_t n);
enum fault card_take(struct card *card, uint8_t byte);
enum turn card_turn(struct card *card, uint8_t *byte);

/* The same by buffers, without BY_CHARACTERS: characters until the end listens or the buffer is
 * full, and their number. */
enum turn terminal_send_bytes(struct terminal *terminal, uint8_t *bytes, size_t room, size_t *n);
enum fault terminal_receive_bytes(struct terminal *terminal, const uint8_t *bytes, size_t n,
                                  size_t *taken);
enum turn card_send_bytes(struct card *card, uint8_t *bytes, size_t room, size_t *n);
enum fault card_receive_bytes(struct card *card, const uint8_t *bytes, size_t n, size_t *taken);

#endif
