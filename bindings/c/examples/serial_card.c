/* serial_card: a card at the other end of a terminal's line, at T=0 or T=1. The line is a tty, or a
 * pseudo terminal that this program creates.
 *
 * The card is the library's, and proved. This program waits for a reset, sends the answer to reset,
 * and passes characters both ways until the next reset. See `serial_card --help`. */
#include "serial_answer.h"
#include "serial_options.h"
#include "serial_pty.h"
#include "serial_signals.h"
#include "serial_t1.h"
#include "table.h"

#include <string.h>

/* Microseconds between two looks at the line of a reset, and at whether a pseudo terminal was
 * closed. */
enum { LOOKS_EVERY = 1000, WAITS_FOR = 10000 };

/* The first byte of a PPS request, and the bits of its PPS0 for PPS1 and for the protocol (ISO/IEC
 * 7816-3, 9.2). */
enum { PPSS = 0xFF, HAS_PPS1 = 0x10, PROTOCOL = 0x0F };

/* No limit on what 61XX announces. */
enum { PLAN_CUT = 256 };

/* the lines of serial_card.help */
static const char HELP[] =
#include "serial_card_help.h"
    ;

/* the most plans of a card */
#define PLANS_LIMIT 64

static bool makes_line;                         /* --pty */
static const char *plans[PLANS_LIMIT + 1];      /* --plan, in order */
static struct serial_options options = SERIAL_OPTIONS(GT_PORT_NONE);

static const struct option OPTIONS[] = {
    { "--pty", OPTION_ON, &makes_line, 0, 0, NO_NAMES },
    { "--plan", OPTION_WORDS, plans, 0, PLANS_LIMIT, NO_NAMES },
    SERIAL_ROWS(options, GT_PORT_CTS, GT_PORT_NONE),
};

/* Functions return this pointer if the card was reset. */
static const char IS_RESET[] = "the card was reset";

/* A card at its line. */
struct socket {
    struct line *line;
    struct serial_pty *pty;     /* that this program makes, or NULL */
    struct table *table;
    const gt_atr *says;         /* the values of its answer to reset */
    enum gt_port_signal reset;
    bool is_held_by_on;
    unsigned long baud;         /* at a reset */
    int protocol;               /* T=0 or T=1 */
};

/* Looks at the line of a reset. Returns IS_RESET if it is in this state, LINE_IS_GONE if the
 * terminal has closed its end, NULL if neither, or a fault. */
static const char *look(const struct socket *socket, bool is_held)
{
    bool is_on = false;
    const char *fault = NULL;
    if (socket->pty != NULL)
        return serial_pty_is_closed(socket->pty) ? LINE_IS_GONE : NULL;
    if (socket->reset == GT_PORT_NONE)
        return NULL;
    fault = gt_port_look(socket->line->port, socket->reset, &is_on);
    if (fault != NULL)
        return fault;
    return (is_on == socket->is_held_by_on) == is_held ? IS_RESET : NULL;
}

/* Waits for a state of that line. Returns NULL, or LINE_IS_GONE or a fault. */
static const char *await_state(const struct socket *socket, bool is_held)
{
    const char *what;
    while ((what = look(socket, is_held)) == NULL)
        gt_port_sleep_until(gt_port_now() + LOOKS_EVERY);
    return what == IS_RESET ? NULL : what;
}

/* Waits for the first reset, or for the next one after a dialogue that ended with `before`. If no
 * reset can come, it returns `before`. Otherwise a fault `before` is printed, and the card is mute
 * until the reset. */
static const char *await_reset(const struct socket *socket, const char *before)
{
    struct serial_pty *pty = socket->pty;
    const bool is_mute = before != NULL && before != IS_RESET && before != LINE_IS_GONE;
    const char *fault = NULL;
    if (pty == NULL && (before == LINE_IS_GONE || socket->reset == GT_PORT_NONE))
        return before;
    if (is_mute)
        program_tell(before);
    if (pty != NULL) {
        if (is_mute)
            serial_pty_await_closing(pty);
        return serial_pty_await_opening(pty);
    }
    if (before != IS_RESET)
        fault = await_state(socket, true);
    if (fault == NULL)
        fault = await_state(socket, false);
    gt_port_drop(socket->line->port);
    return fault;
}

/* Receives a character. The card waits for it without a limit, or until a reset. */
static const char *receive(const struct socket *socket, uint8_t *byte)
{
    const int64_t wait = socket->reset == GT_PORT_NONE ? WAITS_FOR : LOOKS_EVERY;
    const char *what;
    do
        what = line_receive(socket->line, byte, wait);
    while (what == LINE_IS_SILENT && (what = look(socket, true)) == NULL);
    return what;
}

static const char *send_all(const struct socket *socket, const uint8_t *bytes, size_t n)
{
    const char *what = NULL;
    size_t i;
    for (i = 0; i < n && what == NULL; i++) {
        what = look(socket, true);
        if (what == NULL)
            what = line_send(socket->line, bytes[i]);
    }
    return what;
}

/* Sets the card's own rate, or that of a reset. */
static const char *set_rate(const struct socket *socket, bool is_of_card)
{
    const unsigned long clock = socket->baud * ANSWER_CYCLES;
    return line_set(socket->line,
                    is_of_card ? clock * socket->says->di / socket->says->fi : socket->baud);
}

/* Receives the bytes of a request after the first, as its PPS0 announces them. */
static const char *receive_request(const struct socket *socket, uint8_t request[GT_PPS_LIMIT],
                                   size_t *n)
{
    size_t wanted = 2;
    const char *what = NULL;
    request[0] = PPSS;
    for (*n = 1; *n < wanted && what == NULL; ++*n) {
        what = receive(socket, &request[*n]);
        if (what == NULL && *n == 1)
            wanted = 3U + (request[1] >> 4 & 1U) + (request[1] >> 5 & 1U) + (request[1] >> 6 & 1U);
    }
    if (what != NULL)
        --*n;
    return what;
}

/* Whether the answer to reset offers this protocol, and this program has it: T=1 only with LRC. */
static bool speaks(const gt_atr *says, int protocol)
{
    return memchr(says->protocols, protocol, says->protocol_count) != NULL
        && (protocol == 0 || (protocol == 1 && says->t1.edc == GT_LRC));
}

/* Writes the response to a request: its protocol, and its PPS1 if that is the card's own rate or
 * that of a reset. `is_of_card` is whether the card's own rate is used next. Returns false if there
 * is not a response. */
static bool respond(const struct socket *socket, const uint8_t *request, size_t n,
                    uint8_t response[GT_PPS_LIMIT], size_t *count, bool *is_of_card)
{
    const bool has_pps1 = (request[1] & HAS_PPS1) != 0;
    const bool has_rate = socket->says->fi > 0 && socket->says->di > 0;
    const uint8_t protocol = request[1] & PROTOCOL;
    uint16_t pps1 = GT_ABSENT;
    *is_of_card = has_pps1 && has_rate && request[2] == socket->says->rate_code;
    if (has_pps1 && (*is_of_card || request[2] == RATE_OF_RESET))
        pps1 = request[2];
    return speaks(socket->says, protocol)
        && gt_pps_request(protocol, pps1, GT_ABSENT, GT_ABSENT, response, count) == GT_OK
        && gt_pps_agreed(request, n, response, *count) == 1;
}

/* Takes a request after its first byte, and answers it. A card does not answer an invalid request,
 * or one for a protocol that it does not offer (ISO/IEC 7816-3, 9.1). */
static const char *answer_pps(struct socket *socket, FILE *trace)
{
    struct line *line = socket->line;
    uint8_t request[GT_PPS_LIMIT], response[GT_PPS_LIMIT];
    size_t n, count = 0;
    bool is_of_card = false;
    const char *what = receive_request(socket, request, &n);
    if (what == NULL && !respond(socket, request, n, response, &count, &is_of_card))
        what = "the card does not answer this PPS request";
    if (what == NULL)
        what = send_all(socket, response, count);
    if (what == NULL)
        socket->protocol = request[1] & PROTOCOL;
    line->trace = trace;
    line_note_pps(line, LINE_TERMINAL, request, n);
    if (what == NULL)
        line_note_pps(line, LINE_CARD, response, count);
    line->trace = NULL;
    return what == NULL && is_of_card ? set_rate(socket, true) : what;
}

/* Receives the first character after an answer to reset. If it begins PPS, it answers that, and
 * receives the next character. */
static const char *receive_first(struct socket *socket, uint8_t *byte)
{
    struct line *line = socket->line;
    FILE *trace = line->trace;
    const char *what;
    line_note_text(line, NULL);
    line->trace = NULL;
    what = receive(socket, byte);
    if (what == NULL && *byte == PPSS && !socket->says->specific) {
        what = answer_pps(socket, trace);
        if (what == NULL)
            what = receive(socket, byte);
    }
    line->trace = trace;
    if (what == NULL)
        line_note(line, LINE_TERMINAL, *byte);
    return what;
}

/* Sends the card's characters until it listens. */
static const char *send_turns(const struct socket *socket)
{
    gt_card *card = &socket->table->card;
    const char *what = NULL;
    uint8_t byte;
    while (what == NULL && (what = look(socket, true)) == NULL) {
        const int32_t code = gt_card_turn(card, &byte);
        if (table_answers(card, code))
            continue;
        if (code == GT_OK)
            return NULL;
        what = code == GT_SENDS ? line_send(socket->line, byte) : gt_text(code);
    }
    return what;
}

/* Talks T=0 from the terminal's first character on, until a reset or a fault. */
static const char *talk_t0(const struct socket *socket, uint8_t byte)
{
    const char *what = NULL;
    while (what == NULL) {
        const int32_t code = gt_card_take(&socket->table->card, byte);
        what = code == GT_OK ? send_turns(socket) : gt_text(code);
        if (what == NULL)
            what = receive(socket, &byte);
    }
    return what;
}

/* Sends the card's answer to a block. If memory ran out, the card is silent, and the terminal asks
 * again. */
static const char *answer_block(const struct socket *socket)
{
    gt_card *card = &socket->table->card;
    uint8_t bytes[GT_BLOCK_LIMIT];
    size_t n = 0;
    int32_t code;
    do
        code = gt_card_t1_send_bytes(card, bytes, sizeof bytes, &n);
    while (table_answers(card, code));
    if (code == GT_OK)
        return line_send_all(socket->line, bytes, n);
    return code == GT_DONE || code == GT_MEMORY ? NULL : gt_text(code);
}

/* Gives the card a block, or if `what` says so reports that it is damaged. Sends the answer. */
static const char *take_block(const struct socket *socket, const struct t1_block *block,
                              const char *what)
{
    gt_card *card = &socket->table->card;
    int32_t code = GT_OK;
    size_t taken;
    if (what == NULL)
        code = gt_card_t1_receive_bytes(card, block->bytes, block->n, &taken);
    else if (what == LINE_IS_BROKEN)
        code = gt_card_t1_missed(card);
    else if (what == LINE_HAS_WRONG_PARITY)
        code = gt_card_t1_damaged(card);
    else
        return what;
    return code == GT_SENDS || code == GT_MEMORY ? answer_block(socket) : gt_text(code);
}

/* Receives the rest of a block after its first character, which came with right or wrong parity. */
static const char *receive_block(struct line *line, const struct t1_times *times, bool is_well,
                                 struct t1_block *block)
{
    const char *what;
    if (is_well)
        return t1_receive(line, times, times->cwt, block);
    what = line_drop(line, times->cwt, times->cwt);
    return what == NULL || what == LINE_IS_BROKEN ? LINE_HAS_WRONG_PARITY : what;
}

/* Talks T=1 from the terminal's first character on, until a reset or a fault. */
static const char *talk_t1(const struct socket *socket, uint8_t byte)
{
    const struct t1_times times =
        t1_times_of(socket->line, &socket->says->t1, socket->baud * ANSWER_CYCLES);
    const int32_t code = gt_card_t1_begin(&socket->table->card);
    const char *what = code == GT_OK ? NULL : gt_text(code);
    while (what == NULL || what == LINE_HAS_WRONG_PARITY) {
        struct t1_block block = { { byte }, 1 };
        what = take_block(socket, &block,
                          receive_block(socket->line, &times, what == NULL, &block));
        if (what == NULL)
            what = receive(socket, &byte);
    }
    return what;
}

/* Talks from a reset on. Returns what ended the dialogue. */
static const char *talk(struct socket *socket)
{
    const struct table *table = socket->table;
    const char *what;
    uint8_t byte = 0;
    const int32_t code = gt_card_reset(&socket->table->card);
    if (code != GT_OK)
        return gt_text(code);
    socket->protocol = answer_protocol(socket->says, ANSWER_FIRST);
    line_note_text(socket->line, "reset");
    what = set_rate(socket, false);
    if (what == NULL)
        what = send_all(socket, table->atr, table->atr_size);
    if (what == NULL && socket->says->specific)
        what = set_rate(socket, true);
    if (what == NULL)
        what = receive_first(socket, &byte);
    if (what != NULL)
        return what;
    return socket->protocol == 1 ? talk_t1(socket, byte) : talk_t0(socket, byte);
}

/* Serves one dialogue after another, until no reset can come. */
static int serve(struct gt_port *port, struct serial_pty *pty, struct table *table,
                 const gt_atr *says)
{
    struct line line = serial_options_line(&options, port, LINE_CARD);
    struct socket socket = { NULL, NULL, NULL, NULL, GT_PORT_NONE, false, 0, 0 };
    const char *what = NULL, *fault;
    if (pty != NULL && options.has_echo)
        line.echo = LINE_GIVES_ECHO;
    line.is_inverse = says->convention == GT_INVERSE;
    socket.line = &line;
    socket.pty = pty;
    socket.table = table;
    socket.says = says;
    socket.reset = port->is_pseudo ? GT_PORT_NONE : (enum gt_port_signal)options.reset;
    socket.is_held_by_on = options.is_held_by_on;
    socket.baud = options.baud;
    while ((fault = await_reset(&socket, what)) == NULL) {
        what = talk(&socket);
        line_note_text(&line, NULL);
        if (ferror(stdout))
            return program_tell("write fault");
    }
    return program_tell(fault);
}

/* Serves the card at a pseudo terminal, whose name it prints. */
static int make_and_serve(struct table *table, const gt_atr *says)
{
    struct serial_pty pty;
    int result;
    const char *fault = serial_pty_make(&pty);
    if (fault != NULL)
        return program_tell(fault);
    printf("%s\n", pty.port.name);
    result = program_end_output();
    if (result == ALL_WELL)
        result = serve(&pty.port, &pty, table, says);
    serial_pty_close(&pty);
    return result;
}

static int open_and_serve(struct table *table, const gt_atr *says, const char *tty)
{
    static struct gt_port port;
    int result;
    const char *fault = serial_signals_open(&port, tty, options.baud);
    if (fault != NULL)
        return program_tell(fault);
    result = program_end_output();
    if (result == ALL_WELL)
        result = serve(&port, NULL, table, says);
    gt_port_close(&port);
    return result;
}

/* Reads the table's answer to reset, which has to offer T=0 or T=1. */
static const char *read_answer(const struct table *table, gt_atr *says)
{
    size_t place = 0;
    const int32_t code = gt_atr_read(table->atr, table->atr_size, says, &place);
    const int protocol = code == GT_OK ? answer_protocol(says, ANSWER_FIRST) : 0;
    if (code != GT_OK)
        return text_told("the table's answer to reset is invalid: %s, at byte %lu", gt_text(code),
                         (unsigned long)place + 1);
    if (!speaks(says, protocol)
            || (says->specific && (says->implicit || says->fi == 0 || says->di == 0)))
        return "the table's answer to reset does not offer T=0, or T=1 with LRC, at a rate that"
            " it states";
    if (answer_refusal(says, protocol) != NULL)
        fprintf(stderr, "warning: gt_serial refuses this answer to reset: %s\n",
                answer_refusal(says, protocol));
    return NULL;
}

/* Adds the plans. A word with another letter is refused. */
static int add_plans(gt_card *card)
{
    size_t i;
    for (i = 0; plans[i] != NULL; i++) {
        const int32_t code = gt_card_plan(card, plans[i], PLAN_CUT);
        if (code == GT_ARGUMENT)
            return program_refuse("a plan has the letters n, o and a");
        if (code != GT_OK)
            return program_tell(gt_text(code));
    }
    return ALL_WELL;
}

static int run(char *const *words, size_t count)
{
    const size_t wanted = makes_line ? 1 : 2;
    const char *name, *fault;
    struct table table = TABLE_INIT;
    gt_atr says;
    FILE *file;
    int32_t code;
    int result;
    if (count != wanted)
        return program_refuse(count > wanted ? "there are too many words"
                                             : "no tty or no table was provided");
    name = words[wanted - 1];
    file = fopen(name, "r");
    code = table_read(file, name, &table);
    if (file != NULL)
        fclose(file);
    if (code != GT_OK)
        return FAULT;
    fault = read_answer(&table, &says);
    result = fault == NULL ? add_plans(&table.card) : program_tell(fault);
    if (result == ALL_WELL)
        result = makes_line ? make_and_serve(&table, &says)
                            : open_and_serve(&table, &says, words[0]);
    gt_card_free(&table.card);
    return result;
}

static const struct program PROGRAM = {
    "serial_card", HELP, OPTIONS, 1, { "", " is not an option" }, { "", " needs a value" }, run
};

int main(int argc, char **argv)
{
    return program_main(&PROGRAM, argc, argv);
}
