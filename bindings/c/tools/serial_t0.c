#include "serial_t0.h"

const char T0_CUT_SHORT[] = "the card ended the command before it took the data";

/* Words why the terminal does not take the last byte heard. A card that resets itself sends TS
 * first. */
static const char *refuse(struct line *line, int32_t code)
{
    if (line_hears_answer(line))
        return LINE_IS_RESET;
    if (line_hears_echo(line))
        return LINE_ECHOES;
    if (code == GT_BAD_PROCEDURE && line->heard[line->heard_count - 1] == line->answer[0])
        return LINE_IS_RESET;
    return code == GT_NOT_LISTENING || code == GT_AFTER_END ? "unexpected byte" : gt_text(code);
}

/* Hands the terminal the received characters of the card, after a header of `size` bytes or data.
 * The terminal must take all of them: the card sends no more than it is asked for. */
static const char *take(struct t0_end *t0, gt_terminal *terminal, size_t size)
{
    struct line *line = t0->line;
    uint8_t bytes[LINE_RUN];
    size_t n, taken = 0;
    int32_t code;
    const char *fault = line_refuse_echo(line, size, t0->waiting_time);
    if (fault == NULL)
        fault = line_look(line, bytes, &n, t0->waiting_time);
    if (fault != NULL)
        return fault == LINE_IS_SILENT ? "the card is silent" : fault;
    code = gt_terminal_receive_bytes(terminal, bytes, n, &taken);
    if (code != GT_OK)
        taken++;
    line_take(line, bytes, taken);
    line_wipe_copy(bytes, n);
    return code == GT_OK ? NULL : refuse(line, code);
}

/* Whether SW1 is that of a status other than a refusal: 61XX, 62XX, 63XX or 9XXX. */
static bool is_no_refusal(uint8_t sw1)
{
    return (sw1 >= 0x61 && sw1 <= 0x63) || sw1 >= 0x90;
}

/* The last two bytes of the card, after a TPDU. */
const uint8_t *t0_status(const struct line *line)
{
    return line->heard + line->heard_count - 2;
}

/* Looks at what the card has sent, once the terminal sends again or has ended; `has_status` after a
 * TPDU. An echo, or an answer to reset, may look like the card's own. */
static const char *end_turn(const struct t0_end *t0, bool has_status, bool lacks_data)
{
    struct line *line = t0->line;
    const char *fault = line_refuse_more(line, t0->waiting_time);
    if (fault != NULL || !has_status)
        return fault;
    if (line_ends_as_answer(line))
        return LINE_IS_RESET;
    return lacks_data && is_no_refusal(t0_status(line)[0]) ? T0_CUT_SHORT : NULL;
}

/* Leaves out the TPDU whose header comes next: the operation ends with this status in its place. */
static const char *leave_out(gt_terminal *terminal)
{
    static const uint8_t DONE[] = { 0x90, 0x00 };
    const int32_t code = gt_terminal_answered(terminal, DONE, sizeof DONE);
    return code == GT_OK ? NULL : gt_text(code);
}

/* As `t0_pass`, with a place for the bytes to send. */
static const char *pass(struct t0_end *t0, gt_terminal *terminal, bool is_one,
                        uint8_t bytes[LINE_RUN])
{
    struct line *line = t0->line;
    const char *fault = NULL;
    bool lacks_data = false, has_begun = false;
    while (fault == NULL) {
        size_t n = 0, most;
        const bool is_header = gt_terminal_tpdu(terminal, bytes, &n, &most) == GT_OK;
        int32_t code;
        if (is_header && is_one && has_begun && (fault = leave_out(terminal)) != NULL)
            return fault;
        code = gt_terminal_send_bytes(terminal, bytes, LINE_RUN, &n);
        if (n > 0 || code == GT_DONE)
            fault = end_turn(t0, is_header || code == GT_DONE, lacks_data);
        if (fault == NULL && is_header && code != GT_DONE) {
            line_begin_command(line);
            line_forget(line);
            fault = line_await_quiet(line);
        }
        if (fault == NULL)
            fault = code < 0 ? gt_text(code) : line_send_all(line, bytes, n);
        if (code == GT_DONE)
            return fault;
        has_begun = true;
        lacks_data = gt_terminal_data_sent(terminal) == GT_NOT_ALL_SENT;
        if (code == GT_OK && fault == NULL)
            fault = take(t0, terminal, is_header ? n : 0);
    }
    return fault;
}

const char *t0_pass(struct t0_end *t0, gt_terminal *terminal, bool is_one)
{
    uint8_t bytes[LINE_RUN];
    const char *fault = pass(t0, terminal, is_one, bytes);
    line_wipe_copy(bytes, sizeof bytes);
    return fault;
}
