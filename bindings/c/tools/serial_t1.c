#include "serial_t1.h"
#include "text.h"

/* what is known of a command, by its number in galliumtoad.h */
static const char *const OUTCOMES[] = {
    "the card has not carried out the command",
    "the card may have carried out the command",
    "the card has carried out the command",
};

/* the second byte of S(IFS request), which this end sends before its first command alone, and the
 * highest two bits of the second byte of an R-block */
enum { IFS_REQUEST = 0xC1, KIND = 0xC0, R_BLOCK = 0x80 };

struct t1_times t1_times_of(const struct line *line, const gt_atr_t1 *says, unsigned long clock)
{
    struct t1_times times;
    times.bwt = line_etu(line, says->bwt_etu)
        + (int64_t)((says->bwt_cycles * 1000000 + clock - 1) / clock) + line->slack;
    times.cwt = line_etu(line, says->cwt_etu) + line->slack;
    times.bgt = line_etu(line, says->bgt_etu);
    return times;
}

/* Whether LEN, the third byte, says that the last one was received. LEN is 0 before it comes, and
 * at most FF: then the block fills its room. */
static bool is_whole(const struct t1_block *block)
{
    return block->n >= block->bytes[2] + (size_t)4;
}

const char *t1_receive(struct line *line, const struct t1_times *times, int64_t wait,
                       struct t1_block *block)
{
    const char *fault = NULL, *end;
    while (!is_whole(block) && fault == NULL) {
        fault = line_receive(line, &block->bytes[block->n], wait);
        if (fault == NULL)
            block->n++;
        wait = times->cwt;
    }
    if (fault == LINE_IS_SILENT)
        return block->n == 0 ? fault : LINE_IS_BROKEN;
    if (fault != NULL && fault != LINE_HAS_WRONG_PARITY)
        return fault;
    end = line_drop(line, fault == NULL ? times->bgt : times->cwt, times->cwt);
    return end == NULL || (fault != NULL && end == LINE_IS_BROKEN) ? fault : end;
}

/* Whether the exclusive-or of a whole block is right. */
static bool is_sound(const struct t1_block *block)
{
    uint8_t sum = 0;
    size_t i;
    for (i = 0; i < block->n; i++)
        sum ^= block->bytes[i];
    return sum == 0;
}

/* Words why a command failed. What is known of its operation is the later one of what was known
 * before the command, and what is known of the command. */
static const char *tell(const struct t1_end *t1, const char *cause, int32_t known,
                        int32_t outcome)
{
    return text_put(t1->line->port->told, "%s: %s", cause,
                    OUTCOMES[outcome > known ? outcome : known]);
}

static const char *give_up(struct t1_end *t1, int32_t known)
{
    int32_t cause = GT_OK, outcome = GT_UNKNOWN;
    if (gt_t1_fault(&t1->end, &cause, &outcome) != GT_OK)
        return gt_text(GT_FAILED);
    return tell(t1, gt_text(cause), known, outcome);
}

/* Receives the card's block after a sent one. R-blocks of both ends may be the same, after a lost
 * I-block. */
static const char *receive(struct t1_end *t1, const uint8_t *sent, size_t n, int64_t wait,
                           struct t1_block *block)
{
    struct line *line = t1->line;
    const char *fault = line_refuse_echo(line, (sent[1] & KIND) == R_BLOCK ? 0 : n, wait);
    if (fault == NULL)
        fault = t1_receive(line, &t1->times, wait, block);
    if (fault != NULL || !is_sound(block))
        return line_hears_answer(line) ? LINE_IS_RESET : fault;
    line_forget(line);
    return NULL;
}

/* Hands the card's block to the end, or what became of it. */
static const char *hand_on(struct t1_end *t1, const char *fault, struct t1_block *block)
{
    int32_t code = GT_OK;
    if (fault == NULL)
        code = gt_t1_receive_bytes(&t1->end, block->bytes, block->n, &block->n);
    else if (fault == LINE_IS_BROKEN || fault == LINE_IS_SILENT)
        code = gt_t1_missed(&t1->end);
    else if (fault == LINE_HAS_WRONG_PARITY)
        code = gt_t1_damaged(&t1->end);
    else
        return fault;
    return code < 0 ? gt_text(code) : NULL;
}

/* Sends the end's block, and takes the card's. */
static const char *pass_block(struct t1_end *t1, const uint8_t *bytes, size_t n, uint8_t waits)
{
    struct t1_block block = { { 0 }, 0 };
    const char *fault = line_send_all(t1->line, bytes, n);
    if (fault != NULL)
        return fault;
    fault = receive(t1, bytes, n, t1->times.bwt * waits, &block);
    fault = hand_on(t1, fault, &block);
    line_wipe_copy(&block, sizeof block);
    return fault;
}

const char *t1_carry(struct t1_end *t1, const uint8_t *apdu, size_t n, int32_t known,
                     uint8_t *response, size_t room, size_t *len)
{
    uint8_t bytes[GT_BLOCK_LIMIT] = { 0 }, waits = 1;
    const char *fault = NULL;
    bool is_ifs;
    size_t size;
    int32_t code = gt_t1_begin(&t1->end, apdu, n);
    while (code == GT_OK && fault == NULL) {
        code = gt_t1_send_bytes(&t1->end, bytes, sizeof bytes, &size, &waits);
        if (code == GT_OK)
            fault = pass_block(t1, bytes, size, waits);
    }
    is_ifs = bytes[1] == IFS_REQUEST;
    line_wipe_copy(bytes, sizeof bytes);
    if (fault == NULL && code == GT_FAILED)
        return give_up(t1, known);
    if ((fault == LINE_IS_RESET || fault == LINE_ECHOES) && !is_ifs)
        return tell(t1, fault, known, GT_UNKNOWN);
    if (fault == NULL && code == GT_DONE)
        code = gt_t1_response(&t1->end, response, room, len);
    return fault == NULL && code < 0 ? gt_text(code) : fault;
}
