/* Tests what happens when memory runs out: each request is refused in turn. A call that returns
 * GT_MEMORY changes nothing, and works once there is memory. At the end all of it is free. No
 * handle takes more than the header says where it declares them. Of cards of one's own see
 * own_model.h. */
#include "galliumtoad.h"
#include "block.h"
#include "check.h"
#include "wrapped_heap.h"

#include <time.h>

#define BYTES(s) (const uint8_t *)(s), sizeof(s) - 1
#define AID BYTES("\xA0\x00\x00\x00\x03\x10\x10")
#define ABSENT BYTES("\x6A\x82")
#define SELECT BYTES("\x00\xA4\x04\x00\x07\xA0\x00\x00\x00\x03\x10\x10")

static gt_exchange exchange;
static gt_terminal terminal;
static gt_card card;
static gt_session session;
static gt_t1 end;
static uint8_t value[GT_VALUE_LIMIT], data[GT_RESPONSE_LIMIT], apdu[GT_APDU_LIMIT];
static uint16_t status;
static size_t n, most;

/* ---- Each request is refused in turn --------------------------------------------------------- */

/* With 255 bytes of data, the most that a command has. By TPDUs only the start takes memory. */
static void of_an_exchange(void) {
    uint8_t command[261] = { 0x00, 0xA4, 0x04, 0x00, 255 };
    size_t started;
    while (gt_exchange_start(&exchange, command, sizeof command) == GT_MEMORY) {
        lacks++;
        CHECK(taken, 0);
        CHECK(gt_exchange_next(&exchange, data), GT_EMPTY);
    }
    started = requests;
    CHECK(gt_exchange_tpdu(&exchange, apdu, &n, &most), GT_OK);
    CHECK(gt_exchange_answered(&exchange, ABSENT), GT_OK);
    CHECK(gt_exchange_answer(&exchange, &status, NULL, 0, &n), GT_OK);
    CHECK(requests, started);
    gt_exchange_free(&exchange);
    GETS(gt_exchange_start(&exchange, command, sizeof command), GT_OK);
    GETS(gt_exchange_apdu(&exchange, apdu, &n, &most), GT_OK);
    CHECK(n, sizeof command);
    GETS(gt_exchange_responded(&exchange, ABSENT), GT_OK);
    gt_exchange_free(&exchange);
}

static int32_t begin(int kind) {
    static const uint8_t command[260] = { 0x00, 0xD0, 0x00, 0x00, 0xFF };
    switch (kind) {
    case 0: return gt_terminal_select(&terminal, AID);
    case 1: return gt_terminal_get(&terminal, 0x5F20);
    case 2: return gt_terminal_put(&terminal, 0x5F20, value, sizeof value);
    default: return gt_terminal_send(&terminal, command, sizeof command);
    }
}

/* A refused operation leaves the last answer. The next operation with no more data takes no memory,
 * and a reset frees what is kept for it. */
static void of_a_terminal(void) {
    int kind;
    for (kind = 0; kind < 8; kind++) {
        const bool commands = kind >= 4;
        size_t alone, before;
        GETS(gt_terminal_new(&terminal), GT_OK);
        alone = taken;
        GETS(begin(1), GT_OK);
        CHECK(gt_terminal_answered(&terminal, BYTES("\x6A\x88")), GT_OK);
        before = taken;
        while (begin(kind % 4) == GT_MEMORY) {
            CHECK(gt_terminal_answer(&terminal, &status, NULL, 0, &n), GT_OK);
            CHECK(status, 0x6A88);
            CHECK(taken, before);
        }
        if (commands) GETS(gt_terminal_apdu(&terminal, apdu, &n, &most), GT_OK);
        else CHECK(gt_terminal_tpdu(&terminal, apdu, &n, &most), GT_OK);
        if (commands) GETS(gt_terminal_responded(&terminal, ABSENT), GT_OK);
        else CHECK(gt_terminal_answered(&terminal, ABSENT), GT_OK);
        before = requests;
        CHECK(gt_terminal_answer(&terminal, &status, NULL, 0, &n), GT_OK);
        CHECK(status, 0x6A82);
        CHECK(begin(kind % 4), GT_OK);
        CHECK(requests, before);
        CHECK(gt_terminal_reset(&terminal), GT_OK);
        CHECK(taken, alone);
        gt_terminal_free(&terminal);
    }
}

static void build(void) {
    GETS(gt_card_new(&card), GT_OK);
    GETS(gt_card_app(&card, AID), GT_OK);
    GETS(gt_card_object(&card, 0x5F20, BYTES("JOE"), 0), GT_OK);
    GETS(gt_card_finish(&card), GT_OK);
}

/* How often the record lost a character, and how often the card had no memory for a value. */
static int lost, unstored;

/* NULL bytes of a plan. They make a select too long for the first block of the record. */
#define NULLS "nnnnnnnnnnnnnnnnnnnnnnnnnnnnnnnnnnnnnnnn"

static void is_heard(void) {
    gt_character line[34 + sizeof NULLS - 1];
    size_t count = 99;
    const int32_t code = gt_session_heard(&session, line, sizeof line / 2, &count);
    CHECK(code == GT_OK || code == GT_MEMORY, 1);
    CHECK(count, code == GT_OK ? sizeof line / 2 : 99);
    lost += code == GT_MEMORY;
}

/* A card without memory for a value answers 6581, and keeps the old one. */
static void of_a_session(void) {
    bool stored;
    build();
    CHECK(gt_session_start(&session, &card), GT_OK);
    CHECK(gt_session_listen(&session), GT_OK);
    GETS(gt_session_plan(&session, NULLS, 256), GT_OK);
    GETS(gt_session_select(&session, AID, &status, data, 32, &n), GT_OK);
    CHECK(status, 0x9000);
    is_heard();
    GETS(gt_session_put(&session, 0x5F20, BYTES("AL"), &status), GT_OK);
    stored = status == 0x9000;
    CHECK(stored || status == 0x6581, 1);
    unstored += !stored;
    GETS(gt_session_get(&session, 0x5F20, &status, data, 32, &n), GT_OK);
    CHECK(n, stored ? 5 : 6);
    CHECK_BYTES(data, stored ? "\x5F\x20\x02" "AL" : "\x5F\x20\x03" "JOE", n);
    CHECK(gt_session_end(&session, &card), GT_OK);
    gt_card_free(&card);
}

/* Whole TPDUs and commands that a card carries out. */
static void of_a_card(void) {
    build();
    GETS(gt_card_plan(&card, "no", 256), GT_OK);
    GETS(gt_card_tpdu(&card, SELECT, data, 2, &n), GT_OK);
    CHECK_BYTES(data, "\x61\x0B", 2);
    GETS(gt_card_tpdu(&card, BYTES("\x00\xCA\x5F\x20\x06"), data, 8, &n), GT_OK);
    CHECK_BYTES(data, "\x5F\x20\x03JOE\x90\x00", 8);
    GETS(gt_card_apdu(&card, BYTES("\x00\xCA\x5F\x20\x00"), data, 258, &n), GT_OK);
    CHECK_BYTES(data, "\x5F\x20\x03JOE\x90\x00", 8);
    gt_card_free(&card);
}

/* No block takes memory. */
static void comes(uint8_t pcb, const uint8_t *info, size_t m) {
    uint8_t block[GT_BLOCK_LIMIT];
    const size_t size = block_of(block, pcb, info, m);
    CHECK(gt_t1_receive_bytes(&end, block, size, &n), GT_SENDS);
    CHECK(n, size);
}

static void sends(uint8_t pcb) {
    uint8_t block[GT_BLOCK_LIMIT], waits;
    CHECK(gt_t1_send_bytes(&end, block, sizeof block, &n, &waits), GT_OK);
    CHECK(block[1], pcb);
}

/* The end has its memory from the start: it needs more for a longer command alone. */
static void of_an_end_at_t1(void) {
    static const uint8_t LONG[GT_APDU_LIMIT + 1];
    GETS(gt_t1_new(&end, GT_LRC, 254, 4, 16, 258), GT_OK);
    GETS(gt_t1_begin(&end, LONG, sizeof LONG), GT_OK);
    CHECK(gt_t1_reset(&end), GT_OK);
    CHECK(gt_t1_begin(&end, apdu, sizeof apdu), GT_OK);
    sends(0xC1);
    comes(0xE1, BYTES("\xFE"));
    sends(0x20);
    comes(0x90, value, 0);
    sends(0x40);
    comes(0x20, value, 254);
    sends(0x90);
    comes(0x40, value, 4);
    CHECK(gt_t1_response(&end, data, sizeof data, &n), GT_OK);
    CHECK(n, 258);
    gt_t1_free(&end);
}

/* Without memory for a command there is no answer, and the card has not carried it out. */
static void card_hears(uint8_t pcb, const uint8_t *info, size_t m) {
    uint8_t block[GT_BLOCK_LIMIT];
    const size_t size = block_of(block, pcb, info, m);
    while (gt_card_t1_receive_bytes(&card, block, size, &n) == GT_MEMORY) {
        lacks++;
        CHECK(n, size);
        CHECK(gt_card_t1_send_bytes(&card, data, 258, &n), GT_DONE);
    }
    CHECK(gt_card_t1_send_bytes(&card, data, 258, &n), GT_OK);
}

static void of_a_card_at_t1(void) {
    build();
    GETS(gt_card_t1_begin(&card), GT_OK);
    card_hears(0x00, SELECT);
    CHECK_BYTES(data, "\x00\x00\x02\x61\x0B\x68", 6);
    card_hears(0x60, BYTES("\x00\xCA\x5F"));
    CHECK_BYTES(data, "\x00\x80\x00\x80", 4);
    card_hears(0x00, BYTES("\x20\x00"));
    CHECK_BYTES(data, "\x00\x40\x08\x5F\x20\x03JOE\x90\x00\xE4", 12);
    gt_card_free(&card);
}

/* ---- What the handles take ------------------------------------------------------------------- */

static void figures_of_limits(void) {
    static const size_t limits[] = { 0, 1, 256, GT_RESPONSE_LIMIT };
    static const size_t copies[] = { 7, 0, sizeof value, 255 };
    static const uint8_t command[261] = { 0x00, 0xA4, 0x04, 0x00, 255 };
    size_t i, kind;
    for (i = 0; i < sizeof limits / sizeof *limits; i++) {
        peak = 0;
        CHECK(gt_exchange_start_within(&exchange, command, sizeof command, limits[i]), GT_OK);
        CHECK(taken, 272 + limits[i] + 255);
        CHECK(peak, taken);
        gt_exchange_free(&exchange);
        CHECK(gt_terminal_new_within(&terminal, limits[i]), GT_OK);
        CHECK(taken, 464);
        for (kind = 0; kind < 4; kind++) {
            CHECK(begin((int)kind), GT_OK);
            CHECK(taken, 464 + limits[i] + copies[kind]);
            CHECK(gt_terminal_reset(&terminal), GT_OK);
        }
        gt_terminal_free(&terminal);
    }
}

/* Builds a card, and carries out a select, a put of `size` bytes and a get in a session. */
static void figure_of_a_session(size_t size, bool is_listened_to, size_t limit) {
    peak = 0;
    build();
    CHECK(peak <= 10571, 1);
    CHECK(gt_session_start(&session, &card), GT_OK);
    if (is_listened_to) CHECK(gt_session_listen(&session), GT_OK);
    CHECK(gt_session_select(&session, AID, &status, data, sizeof data, &n), GT_OK);
    CHECK(gt_session_put(&session, 0x5F20, value, size, &status), GT_OK);
    CHECK(status, 0x9000);
    CHECK(gt_session_get(&session, 0x5F20, &status, data, sizeof data, &n), GT_OK);
    CHECK(peak <= limit, 1);
    gt_session_free(&session);
    CHECK(taken, 0);
}

static void figure_of_a_full_card(void) {
    uint8_t aid[GT_AID_LIMIT] = { 0xA0 };
    uint32_t tag;
    peak = 0;
    CHECK(gt_card_new(&card), GT_OK);
    for (aid[15] = 0; aid[15] < GT_APPS_LIMIT; aid[15]++) {
        CHECK(gt_card_app(&card, aid, sizeof aid), GT_OK);
        for (tag = 0xDF01; tag <= 0xDF00 + GT_ENTRIES_LIMIT; tag++)
            CHECK(gt_card_object(&card, tag, value, sizeof value, 0), GT_OK);
    }
    CHECK(gt_card_finish(&card), GT_OK);
    CHECK(peak <= 4241200, 1);
    gt_card_free(&card);
}

/* A waiting plan takes at most 192 bytes, and one for each letter. TPDUs take plans in turn,
 * however many wait: 11 bytes wait after a SELECT, and 61XX announces at most the plan's cut. A
 * queue that moves all plans at each TPDU would need seconds. All is freed when none waits. */
static void figure_of_plans(size_t many, size_t tpdus) {
    enum { LETTERS = 4 };
    size_t i, before;
    clock_t began;
    build();
    before = taken;
    for (i = 0; i < many; i++)
        if (gt_card_plan(&card, "nono", (uint16_t)(i % 11 + 1)) != GT_OK) break;
    CHECK(i, many);
    CHECK(gt_card_plan(&card, "x", 256), GT_ARGUMENT);
    if (many == GT_PLANS_LIMIT) CHECK(gt_card_plan(&card, "n", 256), GT_PLANS);
    CHECK(taken <= before + many * (192 + LETTERS), 1);
    began = clock();
    for (i = 0; i < tpdus; i++) {
        CHECK(gt_card_tpdu(&card, SELECT, data, 2, &n), GT_OK);
        CHECK(data[0] << 8 | data[1], 0x6101 + (int)(i % 11));
    }
    CHECK((clock() - began) / CLOCKS_PER_SEC < 2, 1);
    CHECK(gt_card_tpdu(&card, BYTES("\x00\x6D\x00\x00"), data, 2, &n), GT_OK);
    if (tpdus == many) CHECK(taken, before);
    gt_card_free(&card);
}

/* Commands and responses of these sizes at T=1. */
static void figure_of_t1(size_t size, size_t response) {
    peak = 0;
    CHECK(gt_t1_new(&end, GT_LRC, 254, 4, 16, 258), GT_OK);
    CHECK(taken, 368 + GT_APDU_LIMIT + 258);
    CHECK(gt_t1_begin(&end, apdu, size), GT_OK);
    comes(0xE1, BYTES("\xFE"));
    sends(size > 254 ? 0x20 : 0x00);
    if (size > 254) comes(0x90, value, 0);
    if (response > 254) comes(0x20, value, 254);
    comes(response > 254 ? 0x40 : 0x00, value, response > 254 ? response - 254 : response);
    CHECK(gt_t1_response(&end, data, sizeof data, &n), GT_OK);
    CHECK(peak, 368 + GT_APDU_LIMIT + 258);
    gt_t1_free(&end);
    CHECK(taken, 0);
}

/* A put of this size to a card at T=1, in fields of at most `field` bytes. */
static void figure_of_a_card_at_t1(size_t size, size_t field) {
    uint8_t put[5 + 255] = { 0x00, 0xDA, 0x5F, 0x20 }, number = 0;
    size_t at, before, m;
    build();
    CHECK(gt_card_apdu(&card, SELECT, data, 2, &n), GT_OK);
    put[4] = (uint8_t)size;
    before = peak = taken;
    CHECK(gt_card_t1_begin(&card), GT_OK);
    CHECK(taken, before + GT_APDU_LIMIT + 258);
    for (at = 0; at < size + 5; at += m, number ^= 0x40) {
        m = size + 5 - at < field ? size + 5 - at : field;
        card_hears(number | (at + m < size + 5 ? 0x20 : 0), put + at, m);
    }
    CHECK_BYTES(data + 2, "\x02\x90\x00", 3);
    CHECK(peak <= before + GT_APDU_LIMIT + 258 + 512 + size, 1);
    gt_card_free(&card);
}

static void figures(void) {
    static const size_t sizes[] = { 4, 5, 254, 255, 261 }, responses[] = { 2, 254, 255, 258 };
    static const size_t values[] = { 1, 4, 35, 124, 249, 250, 255 }, fields[] = { 1, 32, 254 };
    size_t i, j;
    refused = 0;
    figures_of_limits();
    figure_of_a_session(3, false, 26961);
    figure_of_a_session(3, true, 27217);
    figure_of_a_session(GT_VALUE_LIMIT, false, 43339);
    figure_of_a_session(GT_VALUE_LIMIT, true, 117064);
    figure_of_a_full_card();
    figure_of_plans(1000, 1000);
    figure_of_plans(GT_PLANS_LIMIT, 80000);
    for (i = 0; i < sizeof sizes / sizeof *sizes; i++)
        for (j = 0; j < sizeof responses / sizeof *responses; j++)
            figure_of_t1(sizes[i], responses[j]);
    for (i = 0; i < sizeof values / sizeof *values; i++)
        for (j = 0; j < sizeof fields / sizeof *fields; j++)
            figure_of_a_card_at_t1(values[i], fields[j]);
    CHECK(taken, 0);
}

int main(void) {
    static void (*const OF[])(void) = {
        of_an_exchange, of_a_terminal, of_a_session, of_a_card, of_an_end_at_t1, of_a_card_at_t1
    };
    size_t i;
    for (i = 0; i < sizeof OF / sizeof *OF; i++) {
        lacks = 0;
        do {
            requests = 0;
            refused++;
            OF[i]();
            CHECK(taken, 0);
        } while (requests >= refused);
        CHECK(lacks > 0, 1);
        refused = 0;
    }
    CHECK(lost > 0, 1);
    CHECK(unstored > 0, 1);
    figures();
    CHECK(not_wiped, 0);
    return check_result("memory");
}
