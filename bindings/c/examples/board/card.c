/* A card on a board: sends its answer to reset, and then answers at T=0, or at T=1 if PROTOCOL
 * is 1. */
#include "block.h"

#ifndef PROTOCOL
#define PROTOCOL 0
#endif

/* etu from the last character of the terminal to the card's next one at T=0 */
enum { TURN = 16 };

static const uint8_t AID[] = { 0xA0, 0x00, 0x00, 0x00, 0x03, 0x10, 0x10 };
#define NAME 0x5F20u

/* TS, T0; for T=1 also TD1 and the check */
static const uint8_t ANSWER[] = { 0x3B,
#if PROTOCOL == 1
                                  0x80, 0x01, 0x81
#else
                                  0x00
#endif
};
static gt_card card = GT_INIT;

static int32_t make_card(void)
{
    int32_t code = gt_card_new(&card);
    if (code == GT_OK)
        code = gt_card_app(&card, AID, sizeof AID);
    if (code == GT_OK)
        code = gt_card_object(&card, NAME, (const uint8_t *)"JOE", 3, 0);
    if (code == GT_OK)
        code = gt_card_finish(&card);
    return code;
}

/* Waits for a character as long as it takes. */
static enum line_result receive(uint8_t *byte)
{
    enum line_result result;
    do
        result = line_receive(byte, BOARD_HZ);
    while (result == LINE_SILENT);
    return result;
}

/* A card that got a character with wrong parity waits for it again; the UART asks for that by
 * itself, or this card is mute until its reset. */
static int32_t talk_t0(void)
{
    uint8_t byte;
    int32_t code = GT_OK;
    while (code == GT_OK) {
        if (receive(&byte) != LINE_WELL)
            continue;
        code = gt_card_take(&card, byte);
        while (code == GT_OK && (code = gt_card_turn(&card, &byte)) == GT_SENDS) {
            line_send(&byte, 1, TURN);
            code = GT_OK;
        }
    }
    return code;
}

/* Receives the rest of a block. Returns whether the card has an answer. */
static int32_t take_block(const gt_atr_t1 *says)
{
    const uint64_t cwt = line_etu(says->cwt_etu);
    struct block block;
    enum line_result result;
    size_t taken = 0;
    while (!line_has_more()) {}
    result = block_receive(&block, cwt, cwt);
    if (result == LINE_WELL)
        return gt_card_t1_receive_bytes(&card, block.bytes, block.n, &taken);
    return result == LINE_SILENT ? gt_card_t1_missed(&card) : gt_card_t1_damaged(&card);
}

/* If memory runs out the card is silent, and the terminal asks again. */
static int32_t talk_t1(void)
{
    uint8_t bytes[GT_BLOCK_LIMIT];
    gt_atr atr;
    size_t n = 0;
    int32_t code = gt_atr_read(ANSWER, sizeof ANSWER, &atr, &n);
    if (code == GT_OK)
        code = gt_card_t1_begin(&card);
    while (code == GT_OK) {
        code = take_block(&atr.t1);
        if (code == GT_SENDS)
            code = gt_card_t1_send_bytes(&card, bytes, sizeof bytes, &n);
        if (code == GT_OK)
            line_send(bytes, n, BLOCK_GUARD);
        else if (code == GT_MEMORY)
            code = GT_OK;
    }
    return code;
}

void board_main(void)
{
    int32_t code = make_card();
    if (code == GT_OK) {
        line_send(ANSWER, sizeof ANSWER, 0);
        code = PROTOCOL == 1 ? talk_t1() : talk_t0();
    }
    board_print(gt_text(code));
    board_print("\n");
}
