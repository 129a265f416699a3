/* Tests random sessions at T=1 with a card of one's own application. The test is the terminal, by
 * ISO/IEC 7816-3, clause 11: it chains commands, damages blocks, asks for blocks again, resets, and
 * drops commands while they wait. The card asks for more time. A model of the rules in the header
 * says what goes out, and which command is next. */
#include "block.h"
#include "own_model.h"

/* The PCB of blocks, and what R reports (ISO/IEC 7816-3, 11.3.2). */
enum {
    MORE = 0x20, READY = 0x80, EDC = 1, OTHER = 2,
    RESYNCH = 0xC0, IFS = 0xC1, ABORT = 0xC2, WTX = 0xC3, ANSWER = 0x20
};

static uint8_t block[GT_BLOCK_LIMIT + 1];
static size_t block_n;
static int due, next;       /* N(S) of the terminal's next I-block, and of the card's */
static size_t ifsd;
/* the field of the newest I-block of a response, if the terminal may ask for it again */
static uint8_t newest[254];
static size_t newest_n;
/* how often each happened, which the test shows at its end */
static int dropped, extended, again, before, abandoned, too_long;

/* The card gets a block with this PCB and field. */
static void to_card(uint8_t pcb, const uint8_t *field, size_t n) {
    uint8_t bytes[GT_BLOCK_LIMIT];
    const size_t size = block_of(bytes, pcb, field, n);
    size_t at, got = 0;
    for (at = 0; at < size && failed == 0; at += got) {
        const size_t piece = 1 + any(size - at);
        CHECK(gt_card_t1_receive_bytes(&card, bytes + at, piece, &got),
              at + piece < size ? GT_OK : GT_SENDS);
        CHECK(got, piece);
    }
}

/* A block arrives damaged, in one of the ways that the line notices. Returns what R reports. */
static int damaged(void) {
    static const uint8_t WRONG[] = { 0x00, 0x00, 0x00, 0x55 };
    static const uint8_t NO_BLOCK[] = { 0x00, 0xC4, 0x00, 0xC4 };
    const size_t kind = any(4);
    size_t got;
    if (kind == 0) CHECK(gt_card_t1_missed(&card), GT_SENDS);
    if (kind == 1) CHECK(gt_card_t1_damaged(&card), GT_SENDS);
    if (kind == 2) CHECK(gt_card_t1_receive_bytes(&card, WRONG, 4, &got), GT_SENDS);
    if (kind == 3) CHECK(gt_card_t1_receive_bytes(&card, NO_BLOCK, 4, &got), GT_SENDS);
    return kind == 1 || kind == 2 ? EDC : OTHER;
}

/* The card's next block has this PCB and field, however often it is asked for. */
static void sends(int pcb, const uint8_t *field, size_t n) {
    size_t i;
    uint8_t sum = 0;
    do {
        block_n = 0;
        GETS(gt_card_t1_send_bytes(&card, block, 3, &block_n), GT_BUFFER);
        CHECK(block_n, n + 4);
        GETS(gt_card_t1_send_bytes(&card, block, sizeof block, &block_n), GT_OK);
        CHECK(block_n, n + 4);
        CHECK(block[0], 0);
        CHECK(block[1], pcb);
        CHECK(block[2], n);
        if (failed == 0 && n > 0) CHECK_BYTES(block + 3, field, n);
        for (i = 0; i < block_n; i++) sum ^= block[i];
        CHECK(sum, 0);
    } while (failed == 0 && any(8) == 0);
}

/* Nothing waits for the application. */
static void none_waits(void) {
    gt_command command;
    CHECK(gt_card_respond(&card, given, given_n, given_status), GT_STATE);
    CHECK(gt_card_direction(&card, 1), GT_STATE);
    CHECK(gt_card_more_time(&card, 1), GT_STATE);
    CHECK(gt_card_command(&card, &command), GT_STATE);
    CHECK(gt_card_settled(&card), settled);
}

static void begin(void) {
    due = next = 0;
    ifsd = 32;
    newest_n = 0;
    GETS(gt_card_t1_begin(&card), GT_OK);
    CHECK(gt_card_t1_begin(&card), GT_STATE);
    CHECK(gt_card_t1_send_bytes(&card, block, sizeof block, &block_n), GT_DONE);
    none_waits();
}

static void reset(void) {
    uint8_t byte;
    CHECK(gt_card_reset(&card), GT_OK);
    waits.kind = NOTHING;
    none_waits();
    CHECK(gt_card_turn(&card, &byte), GT_OK);
    CHECK(gt_card_t1_send_bytes(&card, block, sizeof block, &block_n), GT_STATE);
    begin();
}

static void ifs(void) {
    const uint8_t size[] = { (uint8_t)(1 + any(254)) };
    ifsd = size[0];
    to_card(IFS, size, 1);
    sends(IFS + ANSWER, size, 1);
}

/* The command in progress ends before the card answers it. */
static void abandon(void) {
    const size_t kind = any(3);
    abandoned++;
    if (kind == 0) {
        reset();
    } else if (kind == 1) {
        to_card(RESYNCH, NULL, 0);
        sends(RESYNCH + ANSWER, NULL, 0);
        due = next = 0;
        ifsd = 32;
        newest_n = 0;
    } else {
        to_card(ABORT, NULL, 0);
        sends(ABORT + ANSWER, NULL, 0);
        newest_n = 0;
    }
    none_waits();
}

/* S(WTX request) is in progress: until its response comes, any other block gets it again. Returns
 * whether the command still waits. */
static int extend(void) {
    uint8_t multiple = (uint8_t)(1 + any(255)), wrong = (uint8_t)(multiple ^ 1);
    CHECK(gt_card_more_time(&card, 0), GT_ARGUMENT);
    CHECK(gt_card_more_time(&card, multiple), GT_OK);
    extended++;
    for (;;) {
        none_waits();
        sends(WTX, &multiple, 1);
        if (failed > 0 || any(3) > 0) break;
        switch (any(6)) {
        case 0: damaged(); break;
        case 1: to_card((uint8_t)(READY | any(2) << 4), NULL, 0); break;
        case 2: to_card((uint8_t)(due << 6), given, 7); break;
        case 3: to_card(WTX + ANSWER, &wrong, 1); break;
        case 4: to_card(WTX, &multiple, 1); break;
        default: ifs(); to_card(READY, NULL, 0); break;
        }
    }
    if (any(6) == 0) {
        abandon();
        return 0;
    }
    to_card(WTX + ANSWER, &multiple, 1);
    none_waits();
    return 1;
}

/* The newest I-block comes once more: the response before the command that waits. An IFSD that is
 * shorter now cuts its field, and the terminal asks for the rest. */
static void comes_before(void) {
    size_t at = 0, size;
    before++;
    for (next ^= 1; failed == 0; at += size) {
        size = newest_n - at < ifsd ? newest_n - at : ifsd;
        sends(next << 6 | (at + size < newest_n ? MORE : 0), newest + at, size);
        next ^= 1;
        if (at + size == newest_n) break;
        to_card((uint8_t)(READY | next << 4), NULL, 0);
    }
    memmove(newest, newest + at, newest_n - at);
    newest_n -= at;
}

/* A block of the terminal drops the command that waits, which then comes again. */
static void drop(void) {
    dropped++;
    if (any(2) == 0) {
        const int why = damaged();
        sends(READY | due << 4 | why, NULL, 0);
    } else {
        const int number = (int)any(2);
        to_card((uint8_t)(READY | number << 4), NULL, 0);
        if (number != next && newest_n > 0) comes_before();
        else sends(READY | due << 4 | OTHER, NULL, 0);
    }
    none_waits();
}

/* How the last block of a command ends. */
enum { ANSWERED, DROPPED, ABANDONED };

/* The card got the last block of the command. */
static int await(void) {
    for (;;) {
        int32_t code;
        do code = gt_card_t1_send_bytes(&card, block, sizeof block, &block_n);
        while (lacks_memory(code));
        if (code != GT_COMMAND && code != GT_HEADER) {
            CHECK(code, GT_OK);
            return ANSWERED;
        }
        GETS(gt_card_t1_send_bytes(&card, block, sizeof block, &block_n), code);
        if (code == GT_HEADER) CHECK(gt_card_more_time(&card, 1), GT_STATE);
        if (any(6) == 0) {
            drop();
            return DROPPED;
        }
        if (any(8) == 0) {
            abandon();
            return ABANDONED;
        }
        if (code == GT_COMMAND && any(3) == 0) {
            if (!extend()) return ABANDONED;
            continue;
        }
        answer(code);
        if (any(6) > 0) continue;
        if (any(2) == 0) {
            drop();
            return DROPPED;
        }
        abandon();
        return ABANDONED;
    }
}

/* Sends a command in fields of any size. Returns whether the card answers it. */
static int by_fields(const uint8_t *bytes, size_t n) {
    size_t at, size;
    int how;
    for (at = 0; at < n && failed == 0; at += size) {
        const int why = any(6) == 0 ? damaged() : 0;
        if (why > 0) sends(READY | due << 4 | why, NULL, 0);
        size = 1 + any(any(3) == 0 ? 254 : 32);
        if (size > n - at) size = n - at;
        if (at + size == n) break;
        to_card((uint8_t)(due << 6 | MORE), bytes + at, size);
        due ^= 1;
        newest_n = 0;
        sends(READY | due << 4, NULL, 0);
        none_waits();
        if (any(24) == 0) {
            abandon();
            return 0;
        }
    }
    do {
        to_card((uint8_t)(due << 6), bytes + at, n - at);
        none_waits();
        how = await();
    } while (how == DROPPED && failed == 0);
    due ^= how == ANSWERED;
    return how == ANSWERED;
}

/* The card's response comes in these fields. A block may be asked for again: then its field is cut
 * to an IFSD that is shorter now, and grows with none. */
static void comes(void) {
    size_t at = 0, size, most = sizeof out;
    while (failed == 0) {
        size = out_n - at < ifsd ? out_n - at : ifsd;
        if (size > most) size = most;
        sends(next << 6 | (at + size < out_n ? MORE : 0), out + at, size);
        if (any(5) == 0) {
            again++;
            most = size;
            if (any(2) == 0) ifs();
            to_card((uint8_t)(READY | next << 4 | OTHER), NULL, 0);
            continue;
        }
        most = sizeof out;
        next ^= 1;
        memcpy(newest, out + at, size);
        newest_n = size;
        at += size;
        if (at == out_n) return;
        to_card((uint8_t)(READY | next << 4), NULL, 0);
    }
}

/* A chain is too long for a command, although its last field is one. The card answers alone. */
static void long_chain(void) {
    static const uint8_t FIELD[254], LAST[] = { 0x80, 0x2A, 0, 0, 0 };
    size_t fields;
    for (fields = 2 + any(3); fields > 0 && failed == 0; fields--) {
        to_card((uint8_t)(due << 6 | MORE), FIELD, sizeof FIELD - any(120));
        due ^= 1;
        newest_n = 0;
        sends(READY | due << 4, NULL, 0);
    }
    to_card((uint8_t)(due << 6), LAST, sizeof LAST);
    due ^= 1;
    none_waits();
    out_n = 0;
    end_with(0x6700);
    comes();
    none_waits();
    too_long++;
}

static int is_invalid(const sent *s) { return s->header[1] >> 4 == 6 || s->header[1] >> 4 == 9; }

static void one(void) {
    sent s = any_sent();
    uint8_t bytes[GT_APDU_LIMIT];
    const size_t n = apdu_of(&s, bytes);
    const int to = goes_to_card(s.header[1]), was_asked = asked;
    const int reaches = is_own(s.header[1]) && !command_is_wrong(&s);
    if (any(4) == 0) ifs();
    if (any(6) == 0) long_chain();
    now = &s;
    now_n = to ? s.n : 0;
    now_le = to ? 0 : s.le > 0 ? s.le : 256;
    any_response();
    out_n = 0;
    if (!by_fields(bytes, n)) return;
    CHECK(asked > was_asked, reaches);
    settled |= reaches;
    none_waits();
    if (is_invalid(&s)) end_with(0x6D00);
    else model_command(&s);
    comes();
}

int main(void) {
    CHECK(gt_card_more_time(&card, 1), GT_EMPTY);
    sessions(begin, one, reset);
    CHECK(asked > SESSIONS / 2 && fetched > SESSIONS / 100, 1);
    CHECK(dropped > SESSIONS / 100 && abandoned > SESSIONS / 100, 1);
    CHECK(extended > SESSIONS / 100 && again > SESSIONS / 100 && too_long > SESSIONS / 100, 1);
    CHECK(before > SESSIONS / 100, 1);
    return check_result("own_t1");
}
