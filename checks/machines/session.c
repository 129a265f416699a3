/* Plays a session of a terminal with a card of data objects. */
#include "sum.h"

static const uint8_t AID[7] = { 0xA0, 0, 0, 0, 3, 0x10, 0x10 };
static uint8_t bytes[300], data[9000];
static uint16_t status;
static size_t len;

/* The answer of a call, which wrote it to `data`, `status` and `len`. */
static void mix_answer(int32_t said)
{
    if (code(said) != GT_OK)
        return;
    mix_bytes(data, len);
    count_answer(status);
}

static void mix_heard(gt_session *session)
{
    static gt_character characters[700];
    size_t i, n = 0, room = any(2) ? 700 : 40;
    int32_t said = code(gt_session_heard(session, characters, room, &n));
    mix(n);
    for (i = 0; said == GT_OK && i < n && i < room; i++)
        mix((uint64_t)characters[i].from << 8 | characters[i].byte);
}

static void mix_tables(gt_session *session)
{
    uint8_t aid[GT_AID_LIMIT];
    size_t n = 0;
    uint32_t tag = 0;
    int32_t locked = 0;
    if (code(gt_session_selected(session, aid, &n)) == GT_OK)
        mix_bytes(aid, n);
    if (code(gt_session_app_at(session, 0, aid, &n)) == GT_OK)
        mix_bytes(aid, n);
    if (code(gt_session_entry_at(session, 0, 0, &tag, &locked, data, sizeof data, &n)) == GT_OK)
        mix_bytes(data, n);
    mix(tag);
    mix((uint32_t)locked);
}

static void operate(gt_session *session)
{
    static const uint8_t GET[5] = { 0x00, 0xCA, 0x5F, 0x20, 0x00 };
    size_t n = fill(bytes, sizeof bytes), room = any(2) ? 3 : sizeof data;
    mix_answer(gt_session_select(session, AID, 7, &status, data, sizeof data, &len));
    if (code(gt_session_put(session, 0x5F20, bytes, n, &status)) == GT_OK)
        count_answer(status);
    mix_answer(gt_session_get(session, 0x5F20, &status, data, sizeof data, &len));
    mix_heard(session);
    mix_answer(gt_session_send(session, GET, sizeof GET, &status, data, room, &len));
    mix_answer(gt_session_answer(session, &status, data, sizeof data, &len));
    code(gt_session_idle(session));
}

void hold_session(void)
{
    static const char *const PLANS[] = { "", "n", "o", "a", "nno", "oa" };
    gt_card card = GT_INIT;
    gt_session session = GT_INIT;
    /* apart, since the arguments of a call are evaluated in any order */
    const char *plan = PLANS[any(6)];
    size_t n = fill(bytes, sizeof bytes);
    code(gt_card_new(&card));
    code(gt_card_app(&card, AID, sizeof AID));
    code(gt_card_object(&card, 0x5F20, bytes, n, any(4) == 0));
    code(gt_card_finish(&card));
    code(gt_session_start(&session, &card));
    if (any(2))
        code(gt_session_listen(&session));
    code(gt_session_plan(&session, plan, (uint16_t)(1 + any(256))));
    operate(&session);
    mix_tables(&session);
    code(gt_session_reset(&session));
    code(gt_session_end(&session, &card));
    gt_session_free(&session);
    gt_card_free(&card);
}
