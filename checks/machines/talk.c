/* Plays terminals and exchanges with cards of data objects and of an application, by each way. */
#include "talk.h"

uint8_t line[700], response[9000];

static const uint8_t AID[7] = { 0xA0, 0, 0, 0, 3, 0x10, 0x10 };
static const uint8_t DIRECTIONS[32] = GT_ISO_DIRECTIONS;
static uint8_t bytes[600];

uint8_t heard(uint8_t byte)
{
    return any(300) ? byte : byte ^ 0x10;
}

void disturb(uint8_t *at, size_t n)
{
    if (n != 0 && any(50) == 0)
        at[any((uint32_t)n)] ^= 0x10;
}

/* The application: an answer of any length, or more time. */
static void carry_out(gt_card *card)
{
    gt_command command;
    size_t n = fill(bytes, any(4) ? 255 : sizeof bytes);
    uint16_t status = (uint16_t)(any(3) ? 0x9000 : 0x6300 + any(16));
    if (code(gt_card_command(card, &command)) != GT_OK)
        return;
    mix(command.cla);
    mix(command.ins);
    mix(command.p1);
    mix(command.p2);
    mix(command.le);
    mix_bytes(command.data, command.size);
    if (any(9) == 0)
        code(gt_card_more_time(card, (uint8_t)(1 + any(200))));
    else
        code(gt_card_respond(card, bytes, n, status));
}

int is_asked(gt_card *card, int32_t said)
{
    if (said == GT_HEADER)
        code(gt_card_direction(card, (int)any(2)));
    else if (said == GT_COMMAND)
        carry_out(card);
    else
        return 0;
    code(gt_card_settled(card));
    return 1;
}

size_t answered(gt_card *card, whole *call, size_t n)
{
    size_t len = 0;
    int turns;
    int32_t said = code(call(card, line, n, response, sizeof response, &len));
    for (turns = 0; turns < 6 && is_asked(card, said); turns++)
        said = code(call(card, NULL, 0, response, sizeof response, &len));
    mix_bytes(response, said == GT_OK ? len : 0);
    return said == GT_OK ? len : 0;
}

/* The card takes the block of n bytes in `line`, and gives the next. Returns its length, or 0. */
static size_t card_block(gt_card *card, size_t n)
{
    size_t taken = 0;
    int32_t said = code(gt_card_t1_receive_bytes(card, line, n, &taken));
    int turns;
    if (said == GT_OK)
        code(any(2) ? gt_card_t1_missed(card) : gt_card_t1_damaged(card));
    mix(taken);
    n = 0;
    for (turns = 0; turns < TURNS; turns++)
        if (!is_asked(card, code(gt_card_t1_send_bytes(card, line, GT_BLOCK_LIMIT, &n))))
            break;
    mix_bytes(line, n);
    disturb(line, n);
    return n;
}

static void exchange_blocks(gt_t1 *end, gt_card *card)
{
    size_t n = 0, taken = 0;
    uint8_t waits = 0;
    int turns;
    for (turns = 0; turns < TURNS; turns++) {
        if (code(gt_t1_send_bytes(end, line, GT_BLOCK_LIMIT, &n, &waits)) != GT_OK)
            return;
        mix_bytes(line, n);
        mix(waits);
        disturb(line, n);
        n = card_block(card, n);
        if (n == 0 || any(40) == 0)
            code(any(2) ? gt_t1_missed(end) : gt_t1_damaged(end));
        else
            code(gt_t1_receive_bytes(end, line, n, &taken));
    }
}

size_t carried(gt_t1 *end, gt_card *card, size_t n)
{
    int32_t cause = 0, outcome = 0;
    if (code(gt_t1_begin(end, line, n)) != GT_OK)
        return 0;
    exchange_blocks(end, card);
    n = 0;
    if (code(gt_t1_response(end, response, sizeof response, &n)) == GT_OK) {
        mix_bytes(response, n);
        return n;
    }
    code(gt_t1_fault(end, &cause, &outcome));
    mix((uint32_t)cause);
    mix((uint32_t)outcome);
    code(gt_t1_reset(end));
    return 0;
}

#define END gt_terminal
#define CALL(name) gt_terminal_##name
#define WAY(name) terminal_##name
#include "ways.h"
#undef END
#undef CALL
#undef WAY

#define END gt_exchange
#define CALL(name) gt_exchange_##name
#define WAY(name) exchange_##name
#include "ways.h"

/* A command for a card: a case by chance, sometimes with a wrong length. */
static size_t make_command(void)
{
    size_t n = fill(bytes, 40);
    bytes[0] = any(9) ? 0x00 : 0x10;
    bytes[1] = any(2) ? 0xCA : 0xDA;
    bytes[2] = 0;
    bytes[3] = 0x50;
    if (n > 5 && any(20))
        bytes[4] = (uint8_t)(n - 5);
    return n;
}

static void begin_operation(gt_terminal *terminal)
{
    uint32_t tag = any(2) ? 0x5F20 : 0x50;
    switch (any(4)) {
    case 0: code(gt_terminal_select(terminal, AID, sizeof AID)); break;
    case 1: code(gt_terminal_get(terminal, tag)); break;
    case 2: code(gt_terminal_put(terminal, tag, bytes, fill(bytes, sizeof bytes))); break;
    default: code(gt_terminal_send(terminal, bytes, make_command()));
    }
}

static void new_card(gt_card *card)
{
    if (any(2)) {
        code(gt_card_own(card, any(2) ? DIRECTIONS : NULL));
        return;
    }
    code(gt_card_new(card));
    code(gt_card_app(card, AID, sizeof AID));
    code(gt_card_object(card, 0x5F20, bytes, fill(bytes, sizeof bytes), 0));
    code(gt_card_object(card, 0x50, bytes, 9, 1));
    code(gt_card_finish(card));
}

static void mix_tables(gt_card *card)
{
    uint8_t aid[GT_AID_LIMIT];
    size_t n = 0, entry;
    uint32_t tag = 0;
    int32_t locked = 0;
    if (code(gt_card_selected(card, aid, &n)) == GT_OK)
        mix_bytes(aid, n);
    if (code(gt_card_app_at(card, any(2), aid, &n)) == GT_OK)
        mix_bytes(aid, n);
    for (entry = 0; entry < 3; entry++) {
        if (code(gt_card_entry_at(card, 0, entry, &tag, &locked, response, sizeof response, &n)) !=
            GT_OK)
            return;
        mix(tag);
        mix((uint32_t)locked);
        mix_bytes(response, n);
    }
}

static void operate(gt_card *card, gt_t1 *t1, int by_blocks)
{
    gt_terminal terminal = GT_INIT;
    int operations = 1 + (int)any(6);
    if (any(2))
        code(gt_terminal_new(&terminal));
    else
        code(gt_terminal_new_within(&terminal, any(700)));
    while (operations-- > 0) {
        static const char *const PLANS[] = { "", "n", "o", "a", "nno", "oa" };
        const char *plan = PLANS[any(6)];
        code(gt_card_plan(card, plan, (uint16_t)(1 + any(256))));
        begin_operation(&terminal);
        terminal_run(&terminal, t1, card, by_blocks);
        if (any(6) == 0)
            code(gt_terminal_reset(&terminal));
    }
    gt_terminal_free(&terminal);
}

static void command(gt_card *card, gt_t1 *t1, int by_blocks)
{
    gt_exchange exchange = GT_INIT;
    size_t n = make_command();
    if (any(2))
        code(gt_exchange_start(&exchange, bytes, n));
    else
        code(gt_exchange_start_within(&exchange, bytes, n, any(300)));
    exchange_run(&exchange, t1, card, by_blocks);
    gt_exchange_free(&exchange);
}

void talk(void)
{
    gt_card card = GT_INIT;
    gt_t1 t1 = GT_INIT;
    uint8_t ifsc = (uint8_t)(1 + any(254));
    int by_blocks = (int)any(2);
    new_card(&card);
    if (by_blocks) {
        code(gt_card_t1_begin(&card));
        code(gt_t1_new(&t1, GT_LRC, ifsc, 3, 50, 8300));
    }
    operate(&card, &t1, by_blocks);
    command(&card, &t1, by_blocks);
    mix_tables(&card);
    code(gt_card_reset(&card));
    gt_t1_free(&t1);
    gt_card_free(&card);
}
