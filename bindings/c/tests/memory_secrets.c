/* Tests that no block of memory, held or freed, has a piece of a value that the card no longer
 * holds, however the value's chain ended. The linker replaces malloc and free in heap.c. */
#include "galliumtoad.h"
#include "block.h"
#include "check.h"
#include "wrapped_heap.h"

enum { PIECE = 255, LONG = 600, FRONT = 4, FIELD = 254 };
enum { TAG = 0x5F20, TEMPLATE = 0x70, LOCKED = 0x50 };

static const uint8_t AID[] = { 0xA0, 0x00, 0x00, 0x00, 0x03, 0x10, 0x10 };
static const uint8_t ANN[] = { 0x41, 0x4E, 0x4E };

/* The value. Each byte follows from the one before it, so any FRONT bytes in a row identify it. */
static uint8_t secret[GT_VALUE_LIMIT + PIECE];

static uint8_t behind(uint8_t byte) {
    return (uint8_t)(byte * 5 + 113);
}

/* Whether these bytes have FRONT successive bytes of the value, each `apart` places after the last
 * one. */
static bool has_row(const unsigned char *at, size_t n, size_t apart) {
    size_t from, i, row = 1;
    for (from = 0; from < apart && row < FRONT; from++)
        for (i = from + apart, row = 1; i < n && row < FRONT; i += apart)
            row = at[i] == behind(at[i - apart]) ? row + 1 : 1;
    return row == FRONT;
}

/* Whether these bytes have a piece of the value: in a row, or as characters that a session has
 * recorded, each with its sender. */
static bool has_piece(const unsigned char *at, size_t n) {
    return has_row(at, n, 1) || has_row(at, n, 2);
}

/* Counts the held blocks that have a piece of the value. */
static size_t held(void) {
    const held_block *block;
    size_t n = 0;
    for (block = blocks; block; block = block->next)
        n += has_piece((const unsigned char *)(block + 1), block->size);
    return n;
}

#define GONE() (CHECK(held(), 0), CHECK(not_wiped, 0))

static unsigned tpdu(gt_card *c, const uint8_t *bytes, size_t n) {
    uint8_t answer[GT_ANSWER_LIMIT];
    size_t len = 0;
    CHECK(gt_card_tpdu(c, bytes, n, answer, sizeof answer, &len), GT_OK);
    return len < 2 ? 0 : answer[len - 2] * 256u + answer[len - 1];
}

/* Writes a PUT DATA, and returns its length. */
static size_t put_data(uint8_t bytes[5 + PIECE], uint8_t cla, unsigned tag, const uint8_t *value,
                       size_t n) {
    const uint8_t header[] = { cla, 0xDA, (uint8_t)(tag / 256), (uint8_t)(tag % 256), (uint8_t)n };
    memcpy(bytes, header, sizeof header);
    memcpy(bytes + 5, value, n);
    return 5 + n;
}

/* Sends one piece of a value, and returns the status. */
static unsigned piece(gt_card *c, uint8_t cla, unsigned tag, const uint8_t *value, size_t n) {
    uint8_t bytes[5 + PIECE];
    return tpdu(c, bytes, put_data(bytes, cla, tag, value, n));
}

/* Sends all pieces of a value except the last. Returns the number of bytes sent. */
static size_t begun(gt_card *c, unsigned tag, size_t n) {
    size_t at = 0;
    for (; at + PIECE < n; at += PIECE) CHECK(piece(c, 0x10, tag, secret + at, PIECE), 0x9000);
    CHECK(held() > 0, at > 0);
    return at;
}

static unsigned put(gt_card *c, unsigned tag, size_t n) {
    const size_t at = begun(c, tag, n);
    return piece(c, 0x00, tag, secret + at, n - at);
}

static unsigned select_app(gt_card *c) {
    uint8_t bytes[5 + sizeof AID] = { 0x00, 0xA4, 0x04, 0x00, sizeof AID };
    memcpy(bytes + 5, AID, sizeof AID);
    return tpdu(c, bytes, sizeof bytes);
}

/* Builds a card, and selects its application. */
static void build(gt_card *c) {
    CHECK(gt_card_new(c), GT_OK);
    CHECK(gt_card_app(c, AID, sizeof AID), GT_OK);
    CHECK(gt_card_object(c, TAG, ANN, sizeof ANN, false), GT_OK);
    CHECK(gt_card_object(c, LOCKED, ANN, sizeof ANN, true), GT_OK);
    CHECK(gt_card_finish(c), GT_OK);
    CHECK(select_app(c), 0x610B);
    GONE();
}

/* A stored value is in one block alone, and the value that replaces it erases it. */
static void stored(gt_card *c, size_t n) {
    CHECK(put(c, TAG, n), 0x9000);
    CHECK(held(), 1);
    CHECK(piece(c, 0x00, TAG, ANN, sizeof ANN), 0x9000);
    GONE();
    CHECK(put(c, TAG, n), 0x9000);
    CHECK(gt_card_reset(c), GT_OK);
    CHECK(held(), 1);
    CHECK(select_app(c), 0x610B);
    CHECK(piece(c, 0x10, TAG, ANN, sizeof ANN), 0x9000);
    CHECK(piece(c, 0x00, TAG, ANN, sizeof ANN), 0x9000);
    GONE();
}

/* A session without a listener keeps nothing of a value. With one it keeps the last operation until
 * the next one, `gt_session_listen` or the end. */
static void in_a_session(gt_card *c) {
    gt_session s = GT_INIT;
    uint16_t status = 0;
    uint8_t answer[16];
    size_t len = 0;
    begun(c, TAG, LONG);
    CHECK(gt_session_start(&s, c), GT_OK);
    GONE();
    CHECK(gt_session_select(&s, AID, sizeof AID, &status, answer, sizeof answer, &len), GT_OK);
    CHECK(gt_session_put(&s, TEMPLATE, secret, LONG, &status), GT_OK);
    CHECK(status, 0x6A80);
    GONE();
    CHECK(gt_session_listen(&s), GT_OK);
    CHECK(gt_session_put(&s, TEMPLATE, secret, LONG, &status), GT_OK);
    CHECK(status, 0x6A80);
    CHECK(held() > 0, 1);
    CHECK(gt_session_listen(&s), GT_OK);
    GONE();
    CHECK(gt_session_put(&s, TAG, secret, LONG, &status), GT_OK);
    CHECK(status, 0x9000);
    CHECK(held() > 1, 1);
    CHECK(gt_session_put(&s, TAG, ANN, sizeof ANN, &status), GT_OK);
    GONE();
    CHECK(gt_session_put(&s, TEMPLATE, secret, LONG, &status), GT_OK);
    CHECK(gt_session_end(&s, c), GT_OK);
    GONE();
    CHECK(select_app(c), 0x610B);
}

/* Gives the terminal's end at T=1 this block from the card. */
static void comes(gt_t1 *t, uint8_t pcb, const uint8_t *info, size_t n) {
    uint8_t block[GT_BLOCK_LIMIT];
    size_t got = 0;
    n = block_of(block, pcb, info, n);
    CHECK(gt_t1_receive_bytes(t, block, n, &got), GT_SENDS);
}

/* An end at T=1 whose command was the value, and whose response is 250 bytes of it. */
static void answered(gt_t1 *t) {
    static const uint8_t ifs[] = { 0xFE };
    uint8_t block[GT_BLOCK_LIMIT], waits = 0;
    size_t n = 0;
    CHECK(gt_t1_new(t, GT_LRC, 254, 4, 16, GT_ANSWER_LIMIT), GT_OK);
    CHECK(gt_t1_begin(t, secret, PIECE), GT_OK);
    CHECK(held(), 1);
    comes(t, 0xE1, ifs, 1);
    CHECK(gt_t1_send_bytes(t, block, sizeof block, &n, &waits), GT_OK);
    CHECK(held(), 1);
    comes(t, 0x90, ifs, 0);
    comes(t, 0x20, secret, 200);
    CHECK(held(), 2);
    comes(t, 0x40, secret, 50);
    CHECK(held(), 2);
    CHECK(not_wiped, 0);
}

/* An end at T=1 keeps its command and the response until it is reset or freed .. */
static void at_t1(bool is_reset) {
    gt_t1 t = GT_INIT;
    answered(&t);
    if (is_reset) {
        CHECK(gt_t1_reset(&t), GT_OK);
        GONE();
    }
    gt_t1_free(&t);
    GONE();
}

/* .. or begins another command, however short. Of a block that it drops it keeps nothing. */
static void next_at_t1(void) {
    uint8_t block[GT_BLOCK_LIMIT];
    gt_t1 t = GT_INIT;
    size_t got = 0, n;
    answered(&t);
    CHECK(gt_t1_begin(&t, ANN, sizeof ANN), GT_OK);
    GONE();
    n = block_of(block, 0x00, secret, 200);
    CHECK(gt_t1_receive_bytes(&t, block, 100, &got), GT_OK);
    CHECK(held(), 1);
    CHECK(gt_t1_missed(&t), GT_OK);
    GONE();
    block[n - 1] ^= 1;
    CHECK(gt_t1_receive_bytes(&t, block, n, &got), GT_SENDS);
    GONE();
    comes(&t, 0x00, ANN, sizeof ANN);
    CHECK(gt_t1_response(&t, block, sizeof block, &n), GT_OK);
    CHECK(n, sizeof ANN);
    GONE();
    gt_t1_free(&t);
    GONE();
}

static uint8_t number; /* in the PCB of the next I-block to the card: N(S) */

/* Gives the card at T=1 this block. Returns the last two bytes of the field that it answers with,
 * or the PCB if the field is shorter. */
static unsigned hears(gt_card *c, uint8_t pcb, const uint8_t *info, size_t n) {
    uint8_t block[GT_BLOCK_LIMIT];
    size_t got = 0;
    n = block_of(block, pcb, info, n);
    CHECK(gt_card_t1_receive_bytes(c, block, n, &got), GT_SENDS);
    CHECK(gt_card_t1_send_bytes(c, block, sizeof block, &n), GT_OK);
    return n < 6 ? block[1] : block[n - 3] * 256u + block[n - 2];
}

static unsigned last(gt_card *c, const uint8_t *info, size_t n) {
    const uint8_t pcb = number;
    number ^= 0x40;
    return hears(c, pcb, info, n);
}

static void chained(gt_card *c, const uint8_t *info, size_t n) {
    const uint8_t pcb = number | 0x20;
    number ^= 0x40;
    CHECK(hears(c, pcb, info, n), number ? 0x90 : 0x80);
}

/* Sends a put at T=1, in one block or two, and returns the status. */
static unsigned t1_put(gt_card *c, unsigned tag, const uint8_t *value, size_t n) {
    uint8_t bytes[5 + PIECE];
    n = put_data(bytes, 0x00, tag, value, n);
    if (n <= FIELD) return last(c, bytes, n);
    chained(c, bytes, FIELD);
    return last(c, bytes + FIELD, n - FIELD);
}

/* A value at T=1 is in one block alone, and in the response to a get until that is dropped. */
static void t1_stored(gt_card *c) {
    static const uint8_t get[] = { 0x00, 0xCA, 0x5F, 0x20, 0x00 };
    CHECK(t1_put(c, TAG, secret, PIECE), 0x9000);
    CHECK(held(), 1);
    CHECK(t1_put(c, TAG, ANN, sizeof ANN), 0x9000);
    GONE();
    CHECK(t1_put(c, LOCKED, secret, PIECE), 0x6982);
    GONE();
    CHECK(t1_put(c, TEMPLATE, secret, 100), 0x6A80);
    GONE();
    CHECK(t1_put(c, TAG, secret, 200), 0x9000);
    CHECK(last(c, get, sizeof get), 0x9000);
    CHECK(held(), 2);
    CHECK(hears(c, 0xC2, get, 0), 0xE2);
    CHECK(held(), 1);
    CHECK(last(c, get, sizeof get), 0x9000);
    CHECK(held(), 2);
    CHECK(t1_put(c, TAG, ANN, sizeof ANN), 0x9000);
    GONE();
}

/* A command at T=1 that S(ABORT) or S(RESYNCH) drops, or that is too long. */
static void t1_dropped(gt_card *c) {
    static const uint8_t dropping[] = { 0xC2, 0xC0 };
    size_t i;
    for (i = 0; i < sizeof dropping; i++) {
        chained(c, secret, FIELD);
        CHECK(held(), 1);
        CHECK(hears(c, dropping[i], secret, 0), dropping[i] + 0x20u);
        GONE();
    }
    number = 0;
    chained(c, secret, FIELD);
    chained(c, secret, FIELD);
    GONE();
    CHECK(last(c, secret, FIELD), 0x6700);
    GONE();
}

/* A block at T=1 that is damaged or stops, and one that the card has no memory for. */
static void t1_blocks(gt_card *c) {
    uint8_t block[GT_BLOCK_LIMIT], put[FIELD] = { 0x00, 0xDA, 0x5F, 0x20, PIECE };
    size_t got = 0, n = block_of(block, number, secret, 200);
    CHECK(gt_card_t1_receive_bytes(c, block, 100, &got), GT_OK);
    CHECK(held(), 1);
    CHECK(gt_card_t1_missed(c), GT_SENDS);
    GONE();
    block[n - 1] ^= 1;
    CHECK(gt_card_t1_receive_bytes(c, block, n, &got), GT_SENDS);
    GONE();
    chained(c, put, sizeof put);
    n = block_of(block, number, secret, 5 + PIECE - FIELD);
    refused = requests + 1;
    CHECK(gt_card_t1_receive_bytes(c, block, n, &got), GT_MEMORY);
    GONE();
    CHECK(last(c, secret, 5 + PIECE - FIELD), 0x9000);
    CHECK(held(), 1);
    CHECK(t1_put(c, TAG, ANN, sizeof ANN), 0x9000);
    GONE();
}

/* A card at T=1, up to a reset within a command and a block. */
static void card_at_t1(gt_card *c) {
    static const uint8_t ifsd[] = { 0xFE };
    uint8_t block[GT_BLOCK_LIMIT];
    size_t got = 0, n;
    number = 0;
    CHECK(gt_card_t1_begin(c), GT_OK);
    CHECK(hears(c, 0xC1, ifsd, 1), 0xE1);
    t1_stored(c);
    t1_dropped(c);
    t1_blocks(c);
    chained(c, secret, FIELD);
    n = block_of(block, number, secret, FIELD);
    CHECK(gt_card_t1_receive_bytes(c, block, n - 1, &got), GT_OK);
    CHECK(held(), 2);
    CHECK(gt_card_reset(c), GT_OK);
    GONE();
    CHECK(select_app(c), 0x610B);
}

/* ---- A card of one's own at T=1: its application gets the value, or returns it --------------- */

/* Gives the card a command with this data: INS 20 takes it. */
static void to_own(gt_card *c, const uint8_t *value, size_t n) {
    uint8_t bytes[FIELD] = { 0x00, 0x20 }, block[GT_BLOCK_LIMIT];
    size_t got = 0, size;
    bytes[4] = (uint8_t)n;
    memcpy(bytes + 5, value, n);
    size = block_of(block, number, bytes, 5 + n);
    number ^= 0x40;
    CHECK(gt_card_t1_receive_bytes(c, block, size, &got), GT_SENDS);
    CHECK(gt_card_t1_send_bytes(c, block, sizeof block, &size), GT_COMMAND);
}

/* Returns the length of the block that the card sends. */
static size_t own_sends(gt_card *c) {
    uint8_t block[GT_BLOCK_LIMIT];
    size_t n = 0;
    CHECK(gt_card_t1_send_bytes(c, block, sizeof block, &n), GT_OK);
    return n;
}

/* Ends what the card holds: with a command and response without secrets. */
static void own_forgets(gt_card *c) {
    to_own(c, ANN, sizeof ANN);
    CHECK(gt_card_respond(c, NULL, 0, 0x9000), GT_OK);
    CHECK(own_sends(c), 6);
    GONE();
}

/* A command is held until its response goes out, and a response until the next one does. */
static void own_answered(gt_card *c) {
    to_own(c, secret, 200);
    CHECK(held() > 0, 1);
    CHECK(gt_card_respond(c, ANN, sizeof ANN, 0x9000), GT_OK);
    CHECK(own_sends(c), 6);
    GONE();
    to_own(c, ANN, sizeof ANN);
    CHECK(gt_card_respond(c, secret, LONG, 0x9000), GT_OK);
    CHECK(own_sends(c), 6);
    CHECK(held() > 0, 1);
    own_forgets(c);
}

/* A block, S(RESYNCH) or a reset drops a command that waits, before and after its response; it may
 * have asked for more time. */
static void own_dropped(gt_card *c) {
    static const uint8_t two[] = { 2 };
    uint8_t block[GT_BLOCK_LIMIT];
    size_t got, n, i;
    for (i = 0; i < 8; i++) {
        to_own(c, secret, 200);
        if (i % 2 != 0) {
            CHECK(gt_card_more_time(c, 2), GT_OK);
            CHECK(own_sends(c), 5);
            n = block_of(block, 0xE3, two, 1);
            CHECK(gt_card_t1_receive_bytes(c, block, n, &got), GT_SENDS);
            CHECK(gt_card_t1_send_bytes(c, block, sizeof block, &n), GT_COMMAND);
        }
        if (i % 4 > 1) CHECK(gt_card_respond(c, secret, LONG, 0x9000), GT_OK);
        CHECK(held() > 0, 1);
        if (i < 4) {
            CHECK(hears(c, 0xC0, two, 0), 0xE0);
            GONE();
        } else {
            CHECK(gt_card_reset(c), GT_OK);
            GONE();
            CHECK(gt_card_t1_begin(c), GT_OK);
            CHECK(hears(c, 0xC1, (const uint8_t *)"\xFE", 1), 0xE1);
        }
        number = 0;
    }
}

static void own_at_t1(void) {
    static const uint8_t directions[32] = { 0, 0, 0, 0, 0x01 };
    gt_card c = GT_INIT;
    number = 0;
    CHECK(gt_card_own(&c, directions), GT_OK);
    CHECK(gt_card_t1_begin(&c), GT_OK);
    CHECK(hears(&c, 0xC1, (const uint8_t *)"\xFE", 1), 0xE1);
    own_answered(&c);
    own_dropped(&c);
    to_own(&c, secret, 200);
    CHECK(gt_card_respond(&c, secret, LONG, 0x9000), GT_OK);
    gt_card_free(&c);
    GONE();
}

int main(void) {
    static const size_t sizes[] = { FRONT, PIECE, PIECE + FRONT, LONG, GT_VALUE_LIMIT };
    gt_card card = GT_INIT;
    size_t i;
    for (i = 0; i + 1 < sizeof secret; i++) secret[i + 1] = behind(secret[i]);
    build(&card);
    for (i = 0; i < sizeof sizes / sizeof *sizes; i++) stored(&card, sizes[i]);
    in_a_session(&card);
    card_at_t1(&card);
    at_t1(false);
    at_t1(true);
    next_at_t1();
    own_at_t1();
    gt_card_free(&card);
    CHECK(taken, 0);
    GONE();
    return check_result("memory_secrets");
}
