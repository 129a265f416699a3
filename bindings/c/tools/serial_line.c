#include "serial_line.h"
#include "text.h"

#include <string.h>

const char LINE_IS_SILENT[] = "the other end is silent";
const char LINE_IS_LATE[] = "the command takes longer than --patience";
const char LINE_IS_GONE[] = "the line is gone";
const char LINE_HAS_WRONG_PARITY[] = "received a character with wrong parity";
const char LINE_IS_BROKEN[] = "received no valid block";
const char LINE_ECHOES[] = "the line echoes";
const char LINE_IS_RESET[] = "the card has reset itself";
static const char UNEXPECTED[] = "unexpected byte";

/* the fewest last bytes heard that show the front of an answer to reset: TS and a status */
enum { FRONT = 3 };

int64_t line_etu(const struct line *line, unsigned long count)
{
    return (int64_t)((count * UINT64_C(1000000) + line->baud - 1) / line->baud);
}

uint8_t line_turned(uint8_t byte)
{
    unsigned turned = 0, i;
    for (i = 0; i < 8; i++)
        turned = turned << 1 | ((unsigned)byte >> i & 1U);
    return (uint8_t)(turned ^ 0xFF);
}

void line_begin_command(struct line *line)
{
    line->port->until = gt_port_now() + line->patience;
}

/* Turns a character of the line into a byte by the line's convention, and back. */
static uint8_t by_convention(const struct line *line, uint8_t byte)
{
    return line->is_inverse ? line_turned(byte) : byte;
}

/* Keeps a character of the other end. */
static void hear(struct line *line, uint8_t byte)
{
    if (line->heard_count == LINE_RUN) {
        memmove(line->heard, line->heard + 1, --line->heard_count);
        if (line->heard_before > 0)
            line->heard_before--;
    }
    line->heard[line->heard_count++] = byte;
}

void line_note(struct line *line, enum line_end end, uint8_t byte)
{
    if (end != line->own)
        hear(line, byte);
    if (line->trace == NULL)
        return;
    if (line->last_sign != (char)end)
        line_note_text(line, NULL);
    if (line->last_sign == '\0')
        fprintf(line->trace, "%c ", (char)end);
    line->last_sign = (char)end;
    fprintf(line->trace, "%02X", (unsigned)byte);
    fflush(line->trace);
}

void line_note_pps(struct line *line, enum line_end end, const uint8_t *bytes, size_t n)
{
    const char mark[] = { 'p', 'p', 's', ' ', (char)end, ' ', '\0' };
    line_note_text(line, NULL);
    if (line->trace != NULL && n > 0)
        text_print_bytes(line->trace, mark, bytes, n);
}

void line_note_text(struct line *line, const char *text)
{
    if (line->trace == NULL)
        return;
    if (line->last_sign != '\0')
        fputc('\n', line->trace);
    line->last_sign = '\0';
    if (text != NULL)
        fprintf(line->trace, "%s\n", text);
    fflush(line->trace);
}

static int64_t later(int64_t one, int64_t other)
{
    return one > other ? one : other;
}

static const char *text_of(enum gt_port_result result)
{
    switch (result) {
    case GT_PORT_IS_WELL: return NULL;
    case GT_PORT_IS_SILENT: return LINE_IS_SILENT;
    case GT_PORT_IS_LATE: return LINE_IS_LATE;
    case GT_PORT_IS_CUT: return LINE_HAS_WRONG_PARITY;
    default: return LINE_IS_GONE;
    }
}

/* Reads a character of the port, and checks whether it came too early. */
static enum gt_port_result read_port(struct line *line, uint8_t *raw, bool *has_other_parity,
                                  int64_t then)
{
    const enum gt_port_result result = gt_port_receive(line->port, raw, has_other_parity, then);
    line->is_early |= result == GT_PORT_IS_WELL && gt_port_now() < line->quiet_until;
    return result;
}

/* Reads the characters that are there, and waits until then for the first `wanted` ones. */
static enum gt_port_result come_in(struct line *line, size_t wanted, int64_t then)
{
    enum gt_port_result result = GT_PORT_IS_WELL;
    while (line->come_count < LINE_RUN && result == GT_PORT_IS_WELL) {
        struct line_character *next = &line->come[line->come_count];
        result = read_port(line, &next->raw, &next->has_other_parity,
                           line->come_count < wanted ? then : 0);
        if (result == GT_PORT_IS_WELL)
            line->come_count++;
    }
    return line->come_count >= wanted ? GT_PORT_IS_WELL : result;
}

static enum line_end other_of(const struct line *line)
{
    return line->own == LINE_CARD ? LINE_TERMINAL : LINE_CARD;
}

/* Removes this many of the characters looked at. */
static void remove_first(struct line *line, size_t n)
{
    line->come_count -= n;
    memmove(line->come, line->come + n, line->come_count * sizeof *line->come);
}

/* Notes the first of the characters looked at, which is faulty or dropped. */
static void note_first(struct line *line)
{
    line_note(line, other_of(line), by_convention(line, line->come[0].raw));
}

const char *line_refuse_early(struct line *line, int64_t wait)
{
    const enum gt_port_result result = come_in(line, 1, gt_port_now() + wait);
    if (result != GT_PORT_IS_WELL)
        return result == GT_PORT_IS_SILENT ? NULL : text_of(result);
    note_first(line);
    return line->sent_until == 0 ? "a byte after the answer to reset" : UNEXPECTED;
}

const char *line_await_quiet(struct line *line)
{
    return line->echo == LINE_HAS_NO_ECHO ? line_refuse_early(line, line->late) : NULL;
}

const char *line_drop(struct line *line, int64_t first, int64_t quiet)
{
    int64_t wait = first;
    size_t i;
    for (i = 0; i < LINE_DROPS; i++) {
        const enum gt_port_result result = come_in(line, 1, gt_port_now() + wait);
        for (; line->come_count > 0; remove_first(line, 1))
            note_first(line);
        if (result == GT_PORT_IS_GONE)
            return LINE_IS_GONE;
        if (result != GT_PORT_IS_WELL)
            return i == 0 && result == GT_PORT_IS_SILENT ? NULL : LINE_IS_BROKEN;
        wait = quiet;
    }
    return "the other end does not stop sending";
}

/* How many characters were received since this end sent. */
static size_t heard_since(const struct line *line)
{
    return line->heard_count - line->heard_before;
}

/* Whether these were received first, as far as both go. */
static bool agrees(const struct line *line, const uint8_t *bytes, size_t n)
{
    const size_t both = n < heard_since(line) ? n : heard_since(line);
    return both > 0 && memcmp(line->heard + line->heard_before, bytes, both) == 0;
}

/* Whether these were received first. Once they have begun, each byte may take this long. */
static bool hears(struct line *line, const uint8_t *bytes, size_t n, int64_t wait)
{
    size_t before = 0;
    while (agrees(line, bytes, n) && heard_since(line) < n && heard_since(line) > before) {
        before = heard_since(line);
        line_drop(line, wait, 0);
    }
    return agrees(line, bytes, n) && heard_since(line) >= n;
}

bool line_hears_echo(struct line *line)
{
    return line->echo == LINE_HAS_NO_ECHO
        && hears(line, line->sent, line->sent_count, LINE_ECHO_LATE);
}

bool line_ends_as_answer(const struct line *line)
{
    size_t n;
    for (n = FRONT; n <= line->answer_count && n <= line->heard_count; n++) {
        if (memcmp(line->heard + line->heard_count - n, line->answer, n) == 0)
            return true;
    }
    return false;
}

bool line_hears_answer(struct line *line)
{
    const int64_t wait = line_etu(line, LINE_ANSWER_ETU) + line->slack;
    return hears(line, line->answer, line->answer_count, wait) || line_ends_as_answer(line);
}

void line_forget(struct line *line)
{
    line->sent_count = line->heard_count = line->heard_before = 0;
}

/* A compiler may leave out writes that nothing reads. It must read which function this is each
 * time, and so call it. */
static void *(*const volatile wipe)(void *, int, size_t) = memset;

void line_wipe_copy(void *bytes, size_t n)
{
    wipe(bytes, 0, n);
}

void line_wipe(struct line *line)
{
    line_forget(line);
    wipe(line->sent, 0, sizeof line->sent);
    wipe(line->heard, 0, sizeof line->heard);
    wipe(line->come + line->come_count, 0,
         (LINE_RUN - line->come_count) * sizeof *line->come);
}

/* Looks at what the card has sent before the terminal sends: at T=1 it is dropped, unless the card
 * has reset itself. */
static const char *look_before(struct line *line)
{
    const char *fault = line->is_of_blocks ? line_drop(line, 0, 0) : line_refuse_early(line, 0);
    if (fault == LINE_IS_BROKEN)
        fault = line_hears_answer(line) ? LINE_IS_RESET : NULL;
    return fault;
}

/* Hands bytes out in the line's form, once the first of them may be sent. Without an echo the card
 * must be silent for as long as they take on a tty, less a 32nd for a rate that is off. */
static const char *hand_out(struct line *line, const uint8_t *raw, size_t n)
{
    const int64_t length = line_etu(line, LINE_CHARACTER_ETU * n);
    enum gt_port_result result;
    const char *fault;
    gt_port_sleep_until(line->free_from);
    if (line->own == LINE_TERMINAL) {
        fault = look_before(line);
        if (fault != NULL)
            return fault;
        if (line->echo == LINE_HAS_NO_ECHO && !line->port->is_pseudo)
            line->quiet_until = gt_port_now() + length - length / 32;
    }
    line->heard_before = line->heard_count;
    result = gt_port_send(line->port, raw, n, gt_port_now() + length + line->slack);
    line->sent_until = gt_port_now() + length;
    line->free_from = line->sent_until + line->guard;
    return result == GT_PORT_IS_SILENT ? "the tty takes no more characters" : text_of(result);
}

/* Takes the echo of a byte, which was sent by then. */
static const char *take_echo(struct line *line, uint8_t raw, int64_t then)
{
    uint8_t found;
    bool has_other_parity;
    const enum gt_port_result result =
        read_port(line, &found, &has_other_parity, then + line->slack);
    if (result == GT_PORT_IS_SILENT)
        return "there is no echo";
    if (result != GT_PORT_IS_WELL)
        return text_of(result);
    if (found != raw || has_other_parity)
        return "the echo differs from what was sent";
    line->free_from =
        later(line->free_from, gt_port_now() + line_etu(line, LINE_REST_ETU) + line->guard);
    return NULL;
}

/* Sends a run of characters, and takes their echoes back. */
static const char *send_run(struct line *line, const uint8_t *bytes, size_t n)
{
    uint8_t raw[LINE_RUN];
    const char *fault;
    size_t i;
    for (i = 0; i < n; i++)
        raw[i] = by_convention(line, bytes[i]);
    fault = hand_out(line, raw, n);
    for (i = 0; i < n && fault == NULL; i++)
        line_note(line, line->own, bytes[i]);
    for (i = 0; i < n && fault == NULL && line->echo == LINE_TAKES_ECHO; i++)
        fault = take_echo(line, raw[i],
                          line->sent_until - line_etu(line, LINE_CHARACTER_ETU * (n - 1 - i)));
    line_wipe_copy(raw, n);
    return fault;
}

const char *line_send(struct line *line, uint8_t byte)
{
    return send_run(line, &byte, 1);
}

const char *line_send_all(struct line *line, const uint8_t *bytes, size_t n)
{
    const size_t run = line->guard > 0 || n > LINE_RUN ? 1 : n;
    const char *fault = NULL;
    size_t gone;
    if (n == 0)
        return NULL;
    line->sent_count = n < LINE_RUN ? n : LINE_RUN;
    memcpy(line->sent, bytes, line->sent_count);
    for (gone = 0; gone < n && fault == NULL; gone += run)
        fault = send_run(line, bytes + gone, run);
    return fault;
}

/* How long the line waits for a character of the other end. */
static int64_t waits_until(const struct line *line, int64_t wait)
{
    return later(gt_port_now(), line->sent_until) + wait;
}

/* The other end has sent a character: the next one of this end is sent no earlier than this. A
 * terminal sends after it has received all, so a card need not wait until that could be: on a
 * pseudo terminal it takes no time. */
static void note_turn(struct line *line)
{
    const int64_t turn = gt_port_now() + line_etu(line, LINE_TURN_ETU);
    line->free_from = line->own == LINE_CARD ? turn : later(line->free_from, turn);
}

const char *line_receive_first(struct line *line, uint8_t *byte, bool *has_other_parity,
                               int64_t wait)
{
    enum gt_port_result result = GT_PORT_IS_WELL;
    if (line->come_count == 0)
        result = read_port(line, byte, has_other_parity, waits_until(line, wait));
    else {
        *byte = line->come[0].raw;
        *has_other_parity = line->come[0].has_other_parity;
        remove_first(line, 1);
    }
    note_turn(line);
    return text_of(result);
}

/* An echo is no character of this end: it is sent at once. */
static const char *give_echo(const struct line *line, uint8_t raw)
{
    return text_of(gt_port_send(line->port, &raw, 1, gt_port_now() + line->slack));
}

/* Whether a character fits the convention. */
static bool is_well(const struct line *line, bool has_other_parity)
{
    return line->port->is_pseudo || has_other_parity == line->has_parity_of_direct;
}

const char *line_receive(struct line *line, uint8_t *byte, int64_t wait)
{
    bool has_other_parity;
    uint8_t raw;
    const char *fault = line_receive_first(line, &raw, &has_other_parity, wait);
    if (fault != NULL)
        return fault;
    *byte = by_convention(line, raw);
    line_note(line, other_of(line), *byte);
    if (line->is_early)
        return UNEXPECTED;
    if (!is_well(line, has_other_parity))
        return LINE_HAS_WRONG_PARITY;
    return line->echo == LINE_GIVES_ECHO ? give_echo(line, raw) : NULL;
}

const char *line_refuse_echo(struct line *line, size_t n, int64_t wait)
{
    int64_t then = waits_until(line, wait);
    size_t same;
    if (line->echo != LINE_HAS_NO_ECHO || n == 0)
        return NULL;
    for (same = 0; same < n; same++) {
        const enum gt_port_result result = come_in(line, same + 1, then);
        if (result != GT_PORT_IS_WELL)
            return same == 0 ? text_of(result) : NULL;
        if (by_convention(line, line->come[same].raw) != line->sent[same])
            return NULL;
        then = gt_port_now() + LINE_ECHO_LATE;
    }
    return LINE_ECHOES;
}

const char *line_refuse_more(struct line *line, int64_t wait)
{
    const int64_t until = line->port->until;
    enum gt_port_result result;
    if (line->echo != LINE_HAS_NO_ECHO || !agrees(line, line->sent, line->sent_count))
        return NULL;
    /* the card has answered in time */
    line->port->until = INT64_MAX;
    result = come_in(line, 1, waits_until(line, wait));
    line->port->until = until;
    if (result != GT_PORT_IS_WELL)
        return result == GT_PORT_IS_SILENT ? NULL : text_of(result);
    note_first(line);
    return LINE_ECHOES;
}

const char *line_look(struct line *line, uint8_t bytes[LINE_RUN], size_t *n, int64_t wait)
{
    const enum gt_port_result result = come_in(line, 1, waits_until(line, wait));
    *n = 0;
    if (result != GT_PORT_IS_WELL)
        return text_of(result);
    while (!line->is_early && *n < line->come_count
           && is_well(line, line->come[*n].has_other_parity)) {
        const uint8_t raw = line->come[*n].raw;
        bytes[(*n)++] = by_convention(line, raw);
    }
    if (*n > 0)
        return NULL;
    note_first(line);
    return line->is_early ? UNEXPECTED : LINE_HAS_WRONG_PARITY;
}

void line_take(struct line *line, const uint8_t *bytes, size_t n)
{
    size_t i;
    for (i = 0; i < n; i++)
        line_note(line, other_of(line), bytes[i]);
    remove_first(line, n);
    note_turn(line);
}

const char *line_set(struct line *line, unsigned long baud)
{
    gt_port_sleep_until(line->sent_until);
    line->baud = baud;
    line->has_parity_of_direct = false;
    return gt_port_set(line->port, baud, line->is_inverse);
}
