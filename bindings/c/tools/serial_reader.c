#include "serial_reader.h"
#include "serial_options.h"

#include <string.h>

/* How long the slot is empty after a fault, or after it was seen empty, in microseconds. Besides
 * looks for its clients pcscd looks each 0.4 s, and must see that: otherwise it never powers up the
 * next card. */
#define IS_LOST_FOR 1000000

const char SERIAL_READER_ROOM[] = "the answer does not fit the program's room";

const char *serial_reader_init(struct serial_reader *reader, const char *device)
{
    memset(reader, 0, sizeof *reader);
    gt_port_init(&reader->port);
    return serial_settings_read(&reader->settings, device, reader->port.told);
}

/* The line of the reader, as after a reset. */
static struct line make_line(struct serial_reader *reader)
{
    const struct serial_settings *settings = &reader->settings;
    struct serial_options options = SERIAL_OPTIONS(GT_PORT_NONE);
    struct line line;
    options.has_echo = settings->echo;
    options.baud = settings->baud;
    options.slack = settings->slack;
    options.quiet = settings->quiet;
    line = serial_options_line(&options, &reader->port, LINE_TERMINAL);
    line.patience = (int64_t)settings->patience * 1000000;
    return line;
}

/* Ends the session with a card that has lost its state. */
static void lose(struct serial_reader *reader)
{
    serial_reader_power_down(reader);
    reader->is_lost_until = gt_port_now() + IS_LOST_FOR;
}

/* Opens the tty, if it is not open or is gone. One that is back at once has another card. */
static const char *open_port(struct serial_reader *reader)
{
    const char *fault = NULL;
    if (reader->port.fd >= 0 && gt_port_is_gone(&reader->port)) {
        lose(reader);
        gt_port_close(&reader->port);
    }
    if (reader->port.fd < 0)
        fault = gt_port_open(&reader->port, reader->settings.tty, reader->settings.baud);
    reader->was_open |= fault == NULL;
    return fault;
}

/* Whether the line of the settings shows a card. */
static const char *look_at_line(struct serial_reader *reader, bool *is_present)
{
    const struct serial_settings *settings = &reader->settings;
    const char *fault = NULL;
    *is_present = true;
    if (settings->presence == GT_PORT_NONE)
        return NULL;
    fault = gt_port_look(&reader->port, (enum gt_port_signal)settings->presence, is_present);
    *is_present = *is_present == (bool)settings->present_by;
    return fault;
}

enum serial_reader_state serial_reader_look(struct serial_reader *reader, const char **fault)
{
    bool is_present = false;
    const char *why = open_port(reader);
    if (why == NULL)
        why = look_at_line(reader, &is_present);
    *fault = NULL;
    if (why == NULL)
        reader->is_told = false;
    else if (!reader->is_told) {
        reader->is_told = true;
        *fault = why;
    }
    if (why == NULL && is_present)
        return SERIAL_READER_HAS_CARD;
    lose(reader);
    return reader->was_open && reader->port.fd < 0 ? SERIAL_READER_REMOVED : SERIAL_READER_EMPTY;
}

bool serial_reader_is_lost(const struct serial_reader *reader)
{
    return gt_port_now() < reader->is_lost_until;
}

const char *serial_reader_power_up(struct serial_reader *reader)
{
    const struct serial_settings *settings = &reader->settings;
    struct answer_wishes wishes;
    const char *fault = open_port(reader);
    serial_reader_power_down(reader);
    if (fault != NULL)
        return fault;
    wishes.reset = (enum gt_port_signal)settings->reset;
    wishes.is_held_by_on = settings->held_by;
    wishes.opens_again = true;
    wishes.clock = settings->clock;
    wishes.patience = 0;
    reader->line = make_line(reader);
    reader->port.until = gt_port_now() + reader->line.patience;
    fault = gt_port_set(&reader->port, settings->baud, false);
    if (fault == NULL)
        fault = answer_take(&reader->answer, &reader->line, &wishes);
    reader->is_powered = fault == NULL;
    return fault;
}

void serial_reader_power_down(struct serial_reader *reader)
{
    gt_t1_free(&reader->t1.end);
    line_wipe(&reader->line);
    reader->is_powered = reader->has_begun = false;
}

/* Prepares the end at T=1 by the answer to reset. */
static const char *begin_t1(struct serial_reader *reader)
{
    const gt_atr_t1 *says = &reader->answer.says.t1;
    const int32_t code = gt_t1_new(&reader->t1.end, says->edc, says->ifsc, GT_T1_TRIES,
                                   GT_T1_EXTENSIONS, SERIAL_READER_ANSWER);
    reader->t1.line = &reader->line;
    reader->t1.times = t1_times_of(&reader->line, says, reader->answer.clock);
    return code == GT_OK ? NULL : gt_text(code);
}

const char *serial_reader_begin(struct serial_reader *reader, int protocol, bool wants_rate)
{
    const char *fault;
    if (!reader->is_powered)
        return "the card has no power";
    if (reader->has_begun)
        return reader->protocol == protocol ? NULL : "the card talks the other protocol";
    fault = answer_refusal(&reader->answer.says, protocol);
    if (fault != NULL)
        return fault;
    line_begin_command(&reader->line);
    reader->t0.line = &reader->line;
    fault = answer_go_on(&reader->answer, protocol, wants_rate || reader->settings.pps,
                         &reader->t0.waiting_time);
    if (fault == NULL && protocol == 1)
        fault = begin_t1(reader);
    if (fault != NULL)
        lose(reader);
    reader->has_begun = fault == NULL;
    reader->protocol = protocol;
    return fault;
}

/* Copies the answer of the terminal's operation, with this status. */
static const char *copy_answer(gt_terminal *terminal, const uint8_t *status, uint8_t *answer,
                               size_t room, size_t *size)
{
    uint16_t word;
    const int32_t code = gt_terminal_answer(terminal, &word, answer, room, size);
    if (code == GT_BUFFER || (code == GT_OK && room - *size < 2))
        return SERIAL_READER_ROOM;
    if (code != GT_OK)
        return gt_text(code);
    memcpy(answer + *size, status, 2);
    *size += 2;
    return NULL;
}

/* Carries a TPDU. `is_sent` says whether a byte may have left. Programs send Le after data, which
 * no TPDU has: the terminal would only use it for GET RESPONSE. */
static const char *carry_tpdu(struct serial_reader *reader, const uint8_t *tpdu, size_t n,
                              uint8_t *answer, size_t room, size_t *size, bool *is_sent)
{
    gt_terminal terminal = GT_INIT;
    const char *fault = NULL;
    int32_t code = gt_terminal_new_within(&terminal, GT_ANSWER_LIMIT);
    if (code == GT_OK)
        code = gt_terminal_send(&terminal, tpdu, n);
    *is_sent = code == GT_OK;
    fault = code == GT_OK ? t0_pass(&reader->t0, &terminal, true) : gt_text(code);
    if (fault == NULL)
        fault = copy_answer(&terminal, t0_status(&reader->line), answer, room, size);
    gt_terminal_free(&terminal);
    return fault;
}

/* Carries a command in blocks. */
static const char *carry_command(struct serial_reader *reader, const uint8_t *command, size_t n,
                                 uint8_t *answer, size_t room, size_t *size)
{
    const char *fault;
    line_begin_command(&reader->line);
    fault = t1_carry(&reader->t1, command, n, GT_NOT_CARRIED_OUT, answer, room, size);
    if (fault != NULL && gt_t1_response(&reader->t1.end, answer, room, size) == GT_BUFFER)
        return SERIAL_READER_ROOM;
    return fault;
}

/* The words of gt_serial for its option, and those for the setting. */
static const char *worded(const char *fault)
{
    return fault == LINE_IS_LATE ? "the command takes longer than the setting 'patience'" : fault;
}

const char *serial_reader_transmit(struct serial_reader *reader, const uint8_t *command, size_t n,
                                   uint8_t *answer, size_t room, size_t *size)
{
    bool is_sent = true;
    const char *fault;
    *size = 0;
    if (!reader->has_begun)
        return "the card has no power";
    line_forget(&reader->line);
    fault = reader->protocol == 1
        ? carry_command(reader, command, n, answer, room, size)
        : carry_tpdu(reader, command, n, answer, room, size, &is_sent);
    if (fault == NULL || fault == SERIAL_READER_ROOM || !is_sent)
        line_wipe(&reader->line);
    else
        lose(reader);
    if (fault != NULL)
        *size = 0;
    return worded(fault);
}

void serial_reader_close(struct serial_reader *reader)
{
    serial_reader_power_down(reader);
    gt_port_close(&reader->port);
}
