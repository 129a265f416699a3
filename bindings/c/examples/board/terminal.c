/* A terminal on a board: takes a card's answer to reset, selects an application, writes an object
 * and reads it back, at T=0 or T=1 as the card offers first. It prints what the card answers. */
#include "block.h"

/* the most etu before an answer to reset, and within it (ISO/IEC 7816-3, 6.2.1 and 8.1), and those
 * from the last character of a card to the next one of the terminal at T=0 */
enum { ANSWER_BEGINS = 108, ANSWER_GOES_ON = 9600, TURN = 16 };
/* how often T=1 repeats a block, how much longer a card may ask to take, and the longest answer */
enum { TRIES = 3, EXTENSIONS = 50, LONGEST = 8300, ROOM = 256 };

static const uint8_t AID[] = { 0xA0, 0x00, 0x00, 0x00, 0x03, 0x10, 0x10 };
#define NAME 0x5F20u

static uint8_t answer[GT_ATR_LIMIT];
static gt_atr atr;
static gt_t1 t1 = GT_INIT;
static uint8_t line[GT_APDU_LIMIT], data[ROOM];

static void print_hex(const uint8_t *bytes, size_t n)
{
    static const char DIGITS[] = "0123456789ABCDEF";
    char text[3] = { 0 };
    size_t i;
    for (i = 0; i < n; i++) {
        text[0] = DIGITS[bytes[i] >> 4];
        text[1] = DIGITS[bytes[i] & 15];
        board_print(text);
    }
}

/* Why a reception failed. */
static const char *told(enum line_result result)
{
    return result == LINE_SILENT ? "the card is silent" : "a character with wrong parity";
}

/* Receives the answer to reset, one character after the other until it is whole. */
static const char *take_answer(void)
{
    size_t n = 0, place = 0;
    int32_t code = GT_OK;
    do {
        const enum line_result result =
            line_receive(&answer[n], line_etu(n == 0 ? ANSWER_BEGINS : ANSWER_GOES_ON));
        if (result != LINE_WELL)
            return told(result);
        code = gt_atr_read(answer, ++n, &atr, &place);
    } while ((code == GT_ATR_CUT || code == GT_ATR_CHECK_MISSING) && n < sizeof answer);
    return code == GT_OK ? NULL : gt_text(code);
}

/* Passes characters until the operation has ended. The terminal sends only if the card was silent
 * until its turn. */
static const char *run_t0(gt_terminal *terminal)
{
    const uint64_t wait = line_cycles(atr.waiting_time);
    uint8_t byte;
    size_t n = 0, taken = 0;
    for (;;) {
        const int32_t code = gt_terminal_send_bytes(terminal, line, sizeof line, &n);
        enum line_result result;
        if (code < 0)
            return gt_text(code);
        if ((n > 0 || code == GT_DONE) && !line_is_quiet(TURN))
            return "unexpected byte";
        line_send(line, n, TURN);
        if (code == GT_DONE)
            return NULL;
        if (code == GT_SENDS)
            continue;
        result = line_receive(&byte, wait);
        if (result != LINE_WELL)
            return told(result);
        if (gt_terminal_receive_bytes(terminal, &byte, 1, &taken) != GT_OK)
            return "the card breaks T=0";
    }
}

/* Whether a block is the front of the answer to reset: the card has reset itself. */
static bool is_answer(const struct block *block)
{
    size_t i;
    for (i = 0; i < block->n && i < atr.length; i++)
        if (block->bytes[i] != answer[i])
            return false;
    return block->n > 0;
}

/* Sends a block, and hands the card's to the terminal's end. */
static const char *pass_block(size_t n, uint8_t waits)
{
    const uint64_t bwt = line_etu(atr.t1.bwt_etu) + line_cycles(atr.t1.bwt_cycles);
    struct block block;
    enum line_result result;
    size_t taken = 0;
    int32_t code;
    if (line_has_more())
        line_drop(0);
    line_send(line, n, BLOCK_GUARD);
    result = block_receive(&block, bwt * (waits == 0 ? 1 : waits), line_etu(atr.t1.cwt_etu));
    if (is_answer(&block))
        return "the card has reset itself";
    if (result == LINE_WELL)
        code = gt_t1_receive_bytes(&t1, block.bytes, block.n, &taken);
    else
        code = result == LINE_SILENT ? gt_t1_missed(&t1) : gt_t1_damaged(&t1);
    return code < 0 ? gt_text(code) : NULL;
}

/* Carries the command of n bytes in `line` to the card, and its response back to there. */
static const char *carry(size_t n, size_t *length)
{
    const char *fault = NULL;
    uint8_t waits = 1;
    int32_t code = gt_t1_begin(&t1, line, n);
    while (code == GT_OK && fault == NULL) {
        code = gt_t1_send_bytes(&t1, line, sizeof line, &n, &waits);
        if (code == GT_OK)
            fault = pass_block(n, waits);
    }
    if (fault == NULL && code == GT_DONE)
        code = gt_t1_response(&t1, line, sizeof line, length);
    return fault == NULL && code < 0 ? gt_text(code) : fault;
}

static const char *run_t1(gt_terminal *terminal)
{
    const char *fault = NULL;
    size_t n = 0, most = 0;
    int32_t code;
    while (fault == NULL && (code = gt_terminal_apdu(terminal, line, &n, &most)) == GT_OK) {
        fault = carry(n, &n);
        if (fault == NULL && (code = gt_terminal_responded(terminal, line, n)) < 0)
            fault = gt_text(code);
    }
    return fault != NULL || code == GT_NOT_DUE ? fault : gt_text(code);
}

/* Runs the operation that began with this code, and prints its answer. Returns whether it has
 * one. */
static bool run(gt_terminal *terminal, const char *name, int32_t code)
{
    const char *fault = code == GT_OK ? NULL : gt_text(code);
    uint8_t status[2];
    uint16_t sw = 0;
    size_t n = 0;
    if (fault == NULL)
        fault = atr.protocols[0] == 1 ? run_t1(terminal) : run_t0(terminal);
    if (fault == NULL && (code = gt_terminal_answer(terminal, &sw, data, sizeof data, &n)) != GT_OK)
        fault = gt_text(code);
    board_print(name);
    if (fault == NULL) {
        status[0] = (uint8_t)(sw >> 8);
        status[1] = (uint8_t)sw;
        print_hex(status, sizeof status);
        board_print(n > 0 ? " " : "");
        print_hex(data, n);
    } else
        board_print(fault);
    board_print("\n");
    return fault == NULL;
}

void board_main(void)
{
    static const uint8_t VALUE[70] = "ANNA, BERTA, CLARA, DORA, EMMA, FRIDA, GRETA, HANNA";
    gt_terminal terminal = GT_INIT;
    const char *fault = take_answer();
    int32_t code = GT_OK;
    if (fault == NULL && atr.protocols[0] == 1)
        code = gt_t1_new(&t1, atr.t1.edc, atr.t1.ifsc, TRIES, EXTENSIONS, LONGEST);
    if (code == GT_OK)
        code = gt_terminal_new_within(&terminal, ROOM);
    if (fault == NULL && code != GT_OK)
        fault = gt_text(code);
    if (fault != NULL) {
        board_print(fault);
        board_print("\n");
    } else if (run(&terminal, "select ", gt_terminal_select(&terminal, AID, sizeof AID))
               && run(&terminal, "put ", gt_terminal_put(&terminal, NAME, VALUE, sizeof VALUE)))
        run(&terminal, "get ", gt_terminal_get(&terminal, NAME));
    gt_terminal_free(&terminal);
    gt_t1_free(&t1);
}
