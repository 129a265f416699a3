/* Tests random sessions with a card of one's own application by each way in turn: characters,
 * buffers, whole TPDUs and whole commands, under random plans, with resets between and amid
 * commands. A model of the rules in the header says what goes out, and which command is next. */
#include "own_model.h"

/* ---- Resets between and amid commands -------------------------------------------------------- */

static size_t reset_in; /* the card is reset after this number of steps of the application */
static int was_reset;

/* The card is reset. What waits is dropped, and so is a command that has not settled. */
static void reset(void) {
    CHECK(gt_card_reset(&card), GT_OK);
    CHECK(gt_card_respond(&card, given, given_n, given_status), GT_STATE);
    CHECK(gt_card_settled(&card), settled);
    waits.kind = NOTHING;
    was_reset = 1;
}

/* Whether the card asked something, and has its answer: the caller calls it again. */
static int is_asked(int32_t code) {
    if (code != GT_COMMAND && code != GT_HEADER) return 0;
    if (reset_in-- == 0) {
        reset();
        return 0;
    }
    answer(code);
    if (reset_in-- > 0) return 1;
    reset();
    return 0;
}

/* ---- By characters and buffers --------------------------------------------------------------- */

static int by_buffers, cut_used; /* whether the TPDU has taken the plan that waits */
static uint8_t queue[ROOM], came[ROOM];
static size_t queue_at, queue_n, came_n;

static int32_t sends(void) {
    queue_at = queue_n = 0;
    return by_buffers ? gt_card_send_bytes(&card, queue, 1 + any(ROOM), &queue_n)
                      : gt_card_turn(&card, queue);
}

/* A NULL goes out, alone, and the command still waits. */
static void ask_time(void) {
    CHECK(gt_card_more_time(&card, (uint8_t)(1 + any(255))), GT_OK);
    CHECK(gt_card_respond(&card, given, given_n, given_status), GT_STATE);
    CHECK(sends(), GT_SENDS);
    CHECK(queue_n, by_buffers);
    CHECK(queue[0], 0x60);
    CHECK(sends(), GT_COMMAND);
}

/* The card's next character. */
static uint8_t next(void) {
    int32_t code;
    if (by_buffers && queue_at < queue_n) return queue[queue_at++];
    do {
        code = sends();
        while (code == GT_COMMAND && queue_n == 0 && any(4) == 0) ask_time();
    } while (queue_n == 0 && is_asked(code));
    if (was_reset) return 0;
    CHECK(by_buffers ? queue_n > 0 : code == GT_SENDS, 1);
    if (!by_buffers) queue_n = 1;
    queue_at = 1;
    return queue[0];
}

static void to_card(const uint8_t *bytes, size_t n) {
    size_t at, got = 1;
    for (at = 0; at < n && failed == 0; at += got) {
        const size_t piece = by_buffers ? 1 + any(n - at) : 1;
        if (by_buffers) CHECK(gt_card_receive_bytes(&card, bytes + at, piece, &got), GT_OK);
        else CHECK(gt_card_take(&card, bytes[at]), GT_OK);
        CHECK(got, piece);
    }
}

/* A terminal at T=0: it follows the procedure bytes up to the status. */
static void by_line(const sent *s, int to) {
    const size_t total = to ? s->p3 : s->p3 > 0 ? s->p3 : 256;
    const uint8_t ins = s->header[1], p3 = (uint8_t)s->p3;
    size_t at = 0, end;
    to_card(s->header, 4);
    to_card(&p3, 1);
    for (;;) {
        const uint8_t byte = next();
        if (was_reset || failed > 0) return;
        cut_used = 1;
        if (byte == 0x60) continue;
        if (byte != ins && (byte ^ ins) != 0xFF) {
            came[came_n++] = byte;
            came[came_n++] = next();
            break;
        }
        end = byte == ins ? total : at + 1;
        CHECK(at < total && end <= total, 1);
        if (to) to_card(s->data + at, end - at);
        for (; at < end; at++) if (!to) came[came_n++] = next();
    }
    CHECK(queue_at, queue_n);
}

/* ---- As a whole ------------------------------------------------------------------------------ */

typedef int32_t carry(gt_card *, const uint8_t *, size_t, uint8_t *, size_t, size_t *);

/* While a TPDU or a command waits as a whole, no other call begins or continues anything. */
static void misuse(carry *goes, carry *other) {
    uint8_t byte = 0x5A, room[GT_ANSWER_LIMIT] = { 0 };
    size_t n = 7;
    CHECK(gt_card_take(&card, 0), GT_STATE);
    CHECK(gt_card_turn(&card, &byte), GT_STATE);
    CHECK(gt_card_send_bytes(&card, &byte, 1, &n), GT_STATE);
    CHECK(gt_card_receive_bytes(&card, &byte, 1, &n), GT_STATE);
    CHECK(goes(&card, room, 5, room, sizeof room, &n), GT_STATE);
    CHECK(other(&card, NULL, 0, room, sizeof room, &n), GT_STATE);
    CHECK(goes(&card, NULL, 0, room, 1, &n), GT_BUFFER);
    CHECK(gt_card_more_time(&card, 1), GT_STATE);
    CHECK(byte, 0x5A);
    CHECK(n, 7);
}

/* Returns the code of the last call. */
static int32_t by_whole(carry *goes, carry *other, const uint8_t *bytes, size_t n) {
    int32_t code;
    do code = goes(&card, bytes, n, came, sizeof came, &came_n); while (lacks_memory(code));
    while (code == GT_COMMAND || code == GT_HEADER) {
        if (any(4) == 0) misuse(goes, other);
        CHECK(came_n, 0);
        if (!is_asked(code)) return code;
        if (any(4) == 0) misuse(goes, other);
        do code = goes(&card, NULL, 0, came, sizeof came, &came_n); while (lacks_memory(code));
    }
    return code;
}

static void by_tpdu(const sent *s, int to) {
    uint8_t bytes[GT_TPDU_LIMIT];
    const size_t n = 5 + (to ? s->p3 : 0);
    memcpy(bytes, s->header, 4);
    bytes[4] = (uint8_t)s->p3;
    memcpy(bytes + 5, s->data, n - 5);
    cut_used = by_whole(gt_card_tpdu, gt_card_apdu, bytes, n) == GT_OK;
    CHECK(cut_used, !was_reset);
}

static int32_t by_command(const sent *s) {
    uint8_t bytes[GT_APDU_LIMIT];
    return by_whole(gt_card_apdu, gt_card_tpdu, bytes, apdu_of(s, bytes));
}

/* ---- A session ------------------------------------------------------------------------------- */

static size_t cut = 256; /* of the plan that waits; 256 without one */

/* Plans the next TPDU: NULLs, data one at a time, all data, and any cut of a response. */
static void plan(void) {
    static const char LETTERS[] = "noa";
    char steps[8];
    size_t n = any(sizeof steps), i;
    if (cut < 256 || any(2) == 0) return;
    for (i = 0; i < n; i++) steps[i] = LETTERS[any(sizeof LETTERS - 1)];
    steps[n] = '\0';
    cut = 1 + any(255);
    GETS(gt_card_plan(&card, steps, (uint16_t)cut), GT_OK);
}

/* The same card by a TPDU, in any way. Returns whether the application was to be asked. */
static int any_tpdu(const sent *s) {
    const int to = goes_to_card(s->header[1]) && is_own(s->header[1]) && !is_answered(s);
    const int reaches = tpdu_reaches(s);
    now_n = to ? s->p3 : 0;
    now_le = to ? 0 : s->p3 > 0 ? s->p3 : 256;
    cut_used = 0;
    by_buffers = (int)any(2);
    if (any(3) > 0) by_line(s, to);
    else by_tpdu(s, to);
    if (!was_reset) model_tpdu(s, cut);
    if (cut_used) cut = 256;
    return reaches;
}

static int any_command(const sent *s) {
    const int reaches = is_own(s->header[1]) && !command_is_wrong(s);
    const int to = goes_to_card(s->header[1]);
    int32_t code;
    now_n = to ? s->n : 0;
    now_le = to ? 0 : s->le > 0 ? s->le : 256;
    if (s->header[1] >> 4 == 6 || s->header[1] >> 4 == 9) {
        CHECK(by_command(s), GT_INVALID_INS);
        return 0;
    }
    code = by_command(s);
    CHECK(code == GT_OK, !was_reset);
    if (!was_reset) model_command(s);
    return reaches;
}

/* One TPDU or command by any way, and what the card answers. */
static void one(void) {
    sent s = any_sent();
    int before = asked, reaches;
    plan();
    if (waits.kind == REPEAT && any(2) == 0) {
        memcpy(s.header, waits.header, 4);
        s.p3 = waits.n;
    }
    now = &s;
    any_response();
    reset_in = any(6) > 0 ? (size_t)COMMANDS : any(4);
    was_reset = 0;
    out_n = came_n = queue_at = queue_n = 0;
    reaches = any(3) > 0 ? any_tpdu(&s) : any_command(&s);
    if (was_reset) return;
    CHECK(asked - before, reaches);
    CHECK(came_n, out_n);
    CHECK_BYTES(came, out, out_n);
    settled |= reaches;
    CHECK(gt_card_settled(&card), settled);
}

static void begin(void) { cut = 256; }

int main(void) {
    sessions(begin, one, reset);
    CHECK(asked > SESSIONS && fetched > SESSIONS / 100 && repeated > SESSIONS / 100, 1);
    return check_result("own_ways");
}
