/* The model of a card of one's own application, for tests of random sessions: what the terminal
 * sends, what waits at the card, and what goes out by the rules in the header. Requests for memory
 * are refused at random, and the calls repeated. */
#ifndef OWN_MODEL_H
#define OWN_MODEL_H

#include "galliumtoad.h"
#include "check.h"

#ifndef SESSIONS
#define SESSIONS 10000
#endif

enum { ROOM = 600, COMMANDS = 6 };

static gt_card card;
static uint32_t state = 20261129;

/* A number below `limit` (a linear congruential generator, the same on each machine). */
static inline size_t any(size_t limit) {
    state = state * 1664525u + 1013904223u;
    return (size_t)(state >> 8) % limit;
}

#define NEXT_REFUSAL (1 + any(8))
#include "wrapped_heap.h"

/* ---- What the terminal sends ----------------------------------------------------------------- */

/* A header, P3, and P3 bytes of data if they go to the card; or a whole command: Le 0 is no Le. */
typedef struct sent {
    uint8_t header[4], data[255];
    size_t p3, n, le;
} sent;

static uint8_t directions[32];
static int has_directions;

static inline int goes_to_card(uint8_t ins) { return directions[ins / 8] >> ins % 8 & 1; }

/* Few headers, so that the same one comes again. */
static inline sent any_sent(void) {
    static const uint8_t INS[] = { 0x10, 0x12, 0x20, 0x22, 0xC0, 0xC0, 0x61, 0x9F };
    sent s = { { 0 }, { 0 }, 0, 0, 0 };
    size_t i;
    s.header[0] = any(3) == 0 ? 0x80 : 0;
    s.header[1] = INS[any(sizeof INS)];
    s.header[3] = (uint8_t)any(2);
    s.p3 = any(3) == 0 ? any(256) : any(5);
    s.le = any(3) == 0 ? 0 : any(2) == 0 ? 256 : 1 + any(256);
    s.n = any(2) == 0 ? 0 : 1 + any(255);
    for (i = 0; i < sizeof s.data; i++) s.data[i] = (uint8_t)any(256);
    return s;
}

/* ---- The model: what waits at the card, and what goes out ------------------------------------ */

enum { NOTHING, FETCH, REPEAT };

static struct {
    int kind;
    uint8_t header[4], bytes[GT_OWN_LIMIT];
    size_t from, n;
    uint16_t status;
} waits;

/* The response of the application to the command in progress, and what goes out of it. */
static uint8_t given[GT_OWN_LIMIT], out[ROOM];
static size_t given_n, out_n;
static uint16_t given_status;
static int asked; /* how often the application was asked: once for each of its commands */
static int fetched, repeated;

static inline void end_with(uint16_t status) {
    out[out_n++] = (uint8_t)(status >> 8);
    out[out_n++] = (uint8_t)status;
}

static inline void refuse(uint16_t status) {
    waits.kind = NOTHING;
    end_with(status);
}

/* The first `n` bytes of what waits go out; 61XX announces the rest. */
static inline void hand_out(size_t n, size_t cut) {
    const size_t left = waits.n - waits.from, count = n < left ? n : left, rest = left - count;
    memcpy(out + out_n, waits.bytes + waits.from, count);
    out_n += count;
    waits.from += count;
    waits.kind = rest > 0 ? FETCH : NOTHING;
    end_with(rest > 0 ? (uint16_t)(0x6100 + (rest < cut ? rest : cut) % 256) : waits.status);
}

/* At T=0: all, or 6CXX says how many there are. */
static inline void hand_exactly(size_t n, size_t cut) {
    const size_t left = waits.n - waits.from;
    if (left > 0 && left < n) end_with((uint16_t)(0x6C00 + left));
    else hand_out(left == 0 ? 0 : n, cut);
}

static inline void keep_given(const sent *s) {
    waits.kind = REPEAT;
    memcpy(waits.header, s->header, 4);
    memcpy(waits.bytes, given, given_n);
    waits.from = 0;
    waits.n = given_n;
    waits.status = given_status;
}

/* Whether what waits is the answer to a TPDU. */
static inline int is_answered(const sent *s) {
    if (waits.kind == FETCH) return s->header[1] == 0xC0;
    return waits.kind == REPEAT && memcmp(waits.header, s->header, 4) == 0 && waits.n == s->p3;
}

static inline int is_own(uint8_t ins) { return ins >> 4 != 6 && ins >> 4 != 9 && ins != 0xC0; }

static inline int tpdu_reaches(const sent *s) { return !is_answered(s) && is_own(s->header[1]); }

static inline int command_is_wrong(const sent *s) {
    return goes_to_card(s->header[1]) ? s->n == 0 && s->le > 0 : s->n > 0;
}

/* What the card sends after a TPDU, once the application has answered. */
static inline void model_tpdu(const sent *s, size_t cut) {
    const size_t count = s->p3 > 0 ? s->p3 : 256;
    if (is_answered(s)) {
        if (waits.kind == FETCH) fetched++;
        else repeated++;
        hand_exactly(count, cut);
    } else if (!is_own(s->header[1])) {
        refuse(s->header[1] == 0xC0 ? 0x6985 : 0x6D00);
    } else {
        keep_given(s);
        if (goes_to_card(s->header[1])) hand_out(0, cut);
        else hand_exactly(count, cut);
    }
}

static inline void model_command(const sent *s) {
    if (s->header[1] == 0xC0) {
        if (waits.kind == FETCH) {
            fetched++;
            hand_out(s->le, 256);
        } else {
            refuse(0x6985);
        }
    } else if (command_is_wrong(s)) {
        refuse(0x6700);
    } else {
        keep_given(s);
        hand_out(s->le, 256);
    }
}

/* ---- The application ------------------------------------------------------------------------- */

static const sent *now;       /* what the terminal sends */
static size_t now_n, now_le;  /* its data and its Le, as the application gets them */
static int settled = 1;

static inline void any_response(void) {
    static const uint16_t STATUSES[] = { 0x9000, 0x6A82, 0x6282, 0x63C2, 0x9102 };
    size_t i;
    given_n = any(3) == 0 ? any(GT_OWN_LIMIT + 1) : any(4) == 0 ? any(600) : any(6);
    given_status = STATUSES[any(sizeof STATUSES / sizeof *STATUSES)];
    for (i = 0; i < given_n; i++) given[i] = (uint8_t)any(256);
}

/* The card asks for the direction or the response of this command: data, or Le. */
static inline void answer(int32_t code) {
    const int to_card = goes_to_card(now->header[1]);
    gt_command command;
    CHECK(gt_card_command(&card, &command), GT_OK);
    CHECK(command.cla, now->header[0]);
    CHECK(command.ins, now->header[1]);
    CHECK(command.p1, now->header[2]);
    CHECK(command.p2, now->header[3]);
    if (code == GT_HEADER) {
        CHECK(has_directions, 0);
        CHECK(gt_card_respond(&card, given, given_n, given_status), GT_STATE);
        CHECK(gt_card_direction(&card, to_card), GT_OK);
        return;
    }
    CHECK(command.size, now_n);
    CHECK(command.le, now_le);
    CHECK_BYTES(command.data, now->data, now_n);
    CHECK(gt_card_direction(&card, to_card), GT_STATE);
    GETS(gt_card_respond(&card, given, given_n, given_status), GT_OK);
    CHECK(gt_card_respond(&card, given, given_n, given_status), GT_STATE);
    settled = 0;
    asked++;
}

/* Writes a whole command, and returns its length. Le 0 is no Le. */
static inline size_t apdu_of(const sent *s, uint8_t bytes[GT_APDU_LIMIT]) {
    size_t n = 4;
    memcpy(bytes, s->header, 4);
    if (s->n > 0) bytes[n++] = (uint8_t)s->n;
    memcpy(bytes + n, s->data, s->n);
    n += s->n;
    if (s->le > 0) bytes[n++] = (uint8_t)s->le;
    return n;
}

static inline void any_directions(void) {
    size_t i;
    has_directions = any(2) == 0;
    for (i = 0; i < sizeof directions; i++) directions[i] = (uint8_t)any(256);
    refused = requests + NEXT_REFUSAL;
    GETS(gt_card_own(&card, has_directions ? directions : NULL), GT_OK);
    waits.kind = NOTHING;
    settled = 1;
}

/* Sessions of some commands, with resets between them. At the end of each one all memory is given
 * back, and each block was wiped. */
static inline void sessions(void (*begin)(void), void (*one)(void), void (*reset)(void)) {
    size_t i, commands;
    for (i = 0; i < SESSIONS && failed == 0; i++) {
        any_directions();
        begin();
        for (commands = 1 + any(COMMANDS); commands > 0 && failed == 0; commands--) {
            one();
            if (any(12) == 0) reset();
        }
        gt_card_free(&card);
        CHECK(taken, 0);
        CHECK(not_wiped, 0);
    }
    CHECK(lacks > SESSIONS, 1);
}

#endif
