#include "serial_answer.h"
#include "text.h"

#include <galliumtoad.h>

#include <string.h>

/* the latest that an answer begins, in clock cycles (ISO/IEC 7816-3, 6.2.2) */
enum { BEGINS_BEFORE = 40000 };

enum { TS_OF_DIRECT = 0x3B, TS_OF_INVERSE = 0x3F };

static const char NO_ANSWER[] = "the card does not answer to reset";
static const char TOO_LONG[] = "the answer to reset is too long";

/* How long this many cycles of the card's clock are. */
static int64_t cycles(const struct answer *answer, uint64_t count)
{
    return (int64_t)((count * UINT64_C(1000000) + answer->clock - 1) / answer->clock);
}

unsigned long answer_rate(const struct answer *answer)
{
    return answer->clock * answer->says.di / answer->says.fi;
}

int64_t answer_waiting_time(const struct answer *answer)
{
    const unsigned long fi = answer->says.fi > 0 ? answer->says.fi : ANSWER_CYCLES;
    return cycles(answer, 960 * fi * answer->says.waiting_integer);
}

/* Whether the port resets the card. */
static bool is_driven(const struct line *line, const struct answer_wishes *wishes)
{
    return line->port->is_pseudo ? wishes->opens_again : wishes->reset != GT_PORT_NONE;
}

/* Resets the card, and forgets its earlier answers. */
static const char *reset(struct answer *answer, const struct answer_wishes *wishes)
{
    struct line *line = answer->line;
    const char *fault = NULL;
    if (is_driven(line, wishes))
        fault = gt_port_reset(line->port, wishes->reset, wishes->is_held_by_on);
    answer->n = line->come_count = 0;
    if (fault == NULL)
        line_note_text(line, "reset");
    return fault;
}

static const char *tell_none(struct answer *answer, int32_t code, size_t place)
{
    return text_put(answer->line->port->told, "the answer to reset is invalid: %s, at byte %lu",
                    gt_text(code), (unsigned long)place + 1);
}

/* TS shows the convention: 3B, or 3F for the inverse one, which the direct one reads as 03. If it
 * is inverse, its parity is that of the other convention. Other characters are noise. */
static const char *take_first(struct answer *answer, int64_t wait)
{
    struct line *line = answer->line;
    const int64_t then = gt_port_now() + wait;
    bool has_other_parity;
    uint8_t raw = 0;
    size_t noise;
    for (noise = 0; raw != TS_OF_DIRECT && line_turned(raw) != TS_OF_INVERSE; noise++) {
        const char *fault = noise > ANSWER_NOISE_LIMIT
            ? LINE_IS_SILENT
            : line_receive_first(line, &raw, &has_other_parity, then - gt_port_now());
        if (fault == LINE_IS_SILENT)
            return noise > 0 ? tell_none(answer, GT_ATR_NO_TS, 0) : NO_ANSWER;
        if (fault != NULL)
            return fault;
    }
    line->is_inverse = line->has_parity_of_direct = raw != TS_OF_DIRECT;
    answer->bytes[answer->n++] = line->is_inverse ? TS_OF_INVERSE : raw;
    line_note(line, LINE_CARD, answer->bytes[0]);
    if (!line->port->is_pseudo && has_other_parity != line->is_inverse)
        return "received a character with wrong parity";
    return NULL;
}

/* Takes characters until they are an answer, or can't become one. */
static const char *take_others(struct answer *answer)
{
    const int64_t wait = line_etu(answer->line, LINE_ANSWER_ETU) + answer->line->slack;
    size_t place = 0;
    int32_t code;
    while ((code = gt_atr_read(answer->bytes, answer->n, &answer->says, &place)) == GT_ATR_CUT
           || code == GT_ATR_CHECK_MISSING) {
        const char *fault = answer->n == sizeof answer->bytes
            ? TOO_LONG
            : line_receive(answer->line, &answer->bytes[answer->n], wait);
        if (fault == LINE_IS_SILENT)
            return text_put(answer->line->port->told, "the answer to reset stops after byte %lu",
                            (unsigned long)answer->n);
        if (fault != NULL)
            return fault;
        answer->n++;
    }
    if (code == GT_ATR_TOO_LONG)
        return TOO_LONG;
    return code == GT_OK ? line_refuse_early(answer->line, answer->line->late)
                         : tell_none(answer, code, place);
}

/* Takes the answer to a reset, which begins within this time. */
static const char *take_all(struct answer *answer, int64_t wait)
{
    const char *fault = take_first(answer, wait);
    return fault == NULL ? take_others(answer) : fault;
}

const char *answer_take(struct answer *answer, struct line *line,
                        const struct answer_wishes *wishes)
{
    const char *fault, *second;
    int64_t wait = wishes->patience;
    memset(answer, 0, sizeof *answer);
    answer->line = line;
    answer->baud = line->baud;
    answer->clock = wishes->clock > 0 ? wishes->clock : line->baud * ANSWER_CYCLES;
    if (line->port->is_pseudo || wishes->reset != GT_PORT_NONE)
        wait = cycles(answer, BEGINS_BEFORE) + line->slack;
    fault = reset(answer, wishes);
    if (fault != NULL)
        return fault;
    fault = take_all(answer, wait);
    if (fault != NULL && fault != LINE_IS_GONE && is_driven(line, wishes)) {
        second = reset(answer, wishes);
        if (second == NULL)
            second = take_all(answer, wait);
        fault = second == NO_ANSWER ? fault : second;
    }
    line_note_text(line, NULL);
    return fault;
}

static bool has_rate(const gt_atr *says)
{
    return says->fi > 0 && says->di > 0;
}

/* Continues at another rate: of Fi and Di, or of those that hold from the reset on. */
static const char *set_rate(struct answer *answer, bool is_of_card)
{
    struct line *line = answer->line;
    const gt_atr *says = &answer->says;
    const unsigned guard = says->guard_etu;
    const unsigned fi = has_rate(says) ? says->fi : ANSWER_CYCLES;
    const unsigned di = has_rate(says) ? says->di : 1;
    const char *fault =
        line_set(line, is_of_card ? answer_rate(answer) : answer->baud);
    line->guard = guard > LINE_CHARACTER_ETU ? line_etu(line, guard - LINE_CHARACTER_ETU) : 0;
    if (says->guard_indicated > 0)
        line->guard += cycles(answer, (uint64_t)says->guard_indicated * fi / di + 1);
    return fault;
}

/* The bytes of a response, as many as its PPS0 announces. */
static const char *take_response(struct line *line, uint8_t response[GT_PPS_LIMIT], size_t *n)
{
    const int64_t wait = line_etu(line, LINE_ANSWER_ETU) + line->slack;
    size_t wanted = 2;
    const char *fault = NULL;
    for (*n = 0; *n < wanted && fault == NULL; ++*n) {
        fault = line_receive(line, &response[*n], wait);
        if (fault == NULL && *n == 1)
            wanted = 3U + (response[1] >> 4 & 1U) + (response[1] >> 5 & 1U)
                + (response[1] >> 6 & 1U);
    }
    if (fault != NULL && !line->is_early)
        --*n;
    return fault == LINE_IS_SILENT ? "the card does not answer to PPS" : fault;
}

/* Asks for a protocol at the rate of this PPS1, or GT_ABSENT. `is_taken` says whether the card
 * continues at that rate. */
static const char *ask(struct line *line, int protocol, uint16_t pps1, bool *is_taken)
{
    uint8_t request[GT_PPS_LIMIT], response[GT_PPS_LIMIT];
    size_t n = 0, count = 0;
    FILE *trace = line->trace;
    const char *fault;
    int32_t code = gt_pps_request((uint8_t)protocol, pps1, GT_ABSENT, GT_ABSENT, request, &n);
    if (code != GT_OK)
        return gt_text(code);
    fault = line_await_quiet(line);
    if (fault != NULL)
        return fault;
    line_note_text(line, NULL);
    line->trace = NULL;
    fault = line_send_all(line, request, n);
    if (fault == NULL)
        fault = take_response(line, response, &count);
    line->trace = trace;
    line_note_pps(line, LINE_TERMINAL, request, n);
    line_note_pps(line, LINE_CARD, response, count);
    if (fault != NULL)
        return fault;
    code = gt_pps_agreed(request, n, response, count);
    *is_taken = code == 1 && (response[1] & 0x10) != 0;
    return code == 1 ? NULL : "the card does not accept what PPS asks for";
}

int answer_protocol(const gt_atr *says, int wanted)
{
    return wanted != ANSWER_FIRST ? wanted
        : says->specific ? says->specific_t : says->protocols[0];
}

/* Why it refuses T=1, by the answer to reset. */
static const char *refusal_of_t1(const gt_atr_t1 *says)
{
    if (says->edc != GT_LRC)
        return "the card's blocks use CRC, not LRC";
    if (says->ifsc == 0)
        return "the card's IFSC is reserved";
    return says->bwt_etu == 0 ? "the card's block waiting time is reserved" : NULL;
}

const char *answer_refusal(const gt_atr *says, int protocol)
{
    if (protocol != 0 && protocol != 1)
        return "the card talks neither T=0 nor T=1";
    if (says->specific ? says->specific_t != protocol
                       : memchr(says->protocols, protocol, says->protocol_count) == NULL)
        return protocol == 0 ? "the card does not talk T=0" : "the card does not talk T=1";
    if (says->implicit)
        return "the card talks at a rate that it does not state";
    if (says->specific && !has_rate(says))
        return "the card talks at a reserved rate";
    if (protocol == 1)
        return refusal_of_t1(&says->t1);
    return says->waiting_integer == 0 ? "the card's waiting time is reserved" : NULL;
}

/* Asks by PPS for a protocol, and for the card's own rate if the user wants it, once the tty has
 * shown that it runs at that rate. */
static const char *ask_for(struct answer *answer, int protocol, bool wants_rate)
{
    bool is_taken = false;
    const char *fault = wants_rate ? set_rate(answer, true) : NULL;
    if (fault == NULL)
        fault = set_rate(answer, false);
    if (fault == NULL)
        fault = ask(answer->line, protocol, wants_rate ? answer->says.rate_code : GT_ABSENT,
                    &is_taken);
    return fault == NULL && is_taken ? set_rate(answer, true) : fault;
}

/* In specific mode the card continues at once as the answer says, else as before or as PPS has
 * it. */
const char *answer_go_on(struct answer *answer, int protocol, bool asks_pps,
                         int64_t *waiting_time)
{
    const gt_atr *says = &answer->says;
    const bool wants_rate = asks_pps && !says->specific && has_rate(says)
        && says->rate_code != RATE_OF_RESET;
    const bool asks = wants_rate || protocol != answer_protocol(says, ANSWER_FIRST);
    const char *fault = answer_refusal(says, protocol);
    if (fault == NULL)
        fault = asks ? ask_for(answer, protocol, wants_rate) : set_rate(answer, says->specific);
    answer->line->is_of_blocks = protocol == 1;
    answer->line->answer = answer->bytes;
    answer->line->answer_count = answer->n;
    *waiting_time = answer_waiting_time(answer) + answer->line->slack;
    return fault;
}
