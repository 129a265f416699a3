/* gt_serial: a terminal for the card in a Phoenix or Smartmouse reader at a tty. The library's
 * terminal is proved. This program resets the card, reads its answer, and passes characters both
 * ways, each within the line's times. `gt_serial --help` says what it does. */
#include "serial_answer.h"
#include "serial_options.h"
#include "serial_signals.h"
#include "serial_t0.h"
#include "serial_t1.h"
#include "steps.h"

#include <string.h>

/* the lines of gt_serial.help */
static const char HELP[] =
#include "gt_serial_help.h"
    ;

static bool asks_pps;
static unsigned long protocol = 2;      /* --protocol; 2 without it */
static unsigned long patience = SERIAL_PATIENCE;    /* --patience, in seconds */
static const char *file;                /* -f, or NULL */
static struct serial_options options = SERIAL_OPTIONS(GT_PORT_RTS);

static const char *pass(void *line, gt_terminal *terminal, const struct operation *operation);
static struct steps steps = { pass, NULL, false, false };

static const struct option OPTIONS[] = {
    { "-k", OPTION_ON, &steps.goes_on, 0, 0, NO_NAMES },
    { "-f", OPTION_WORD, &file, 0, 0, NO_NAMES },
    { "--verify", OPTION_ON, &steps.verifies, 0, 0, NO_NAMES },
    { "--protocol", OPTION_NUMBER, &protocol, 0, 1, NO_NAMES },
    { "--pps", OPTION_ON, &asks_pps, 0, 0, NO_NAMES },
    { "--quiet", OPTION_NUMBER, &options.quiet, LINE_LATE, SERIAL_QUIET_MOST, NO_NAMES },
    { "--patience", OPTION_NUMBER, &patience, 1, SERIAL_PATIENCE_MOST, NO_NAMES },
    SERIAL_ROWS(options, GT_PORT_NONE, GT_PORT_DTR),
};

/* A card behind a line. */
struct session {
    struct line *line;
    struct t0_end t0;           /* the terminal's end, if the protocol is T=0 */
    struct t1_end t1;           /* and if it is T=1 */
};

/* Passes the commands of the operation in progress at T=1, until it ends. */
static const char *pass_commands(struct session *session, gt_terminal *terminal)
{
    uint8_t apdu[GT_APDU_LIMIT], response[GT_ANSWER_LIMIT];
    size_t n, most, len = 0;
    int32_t code, known = GT_NOT_CARRIED_OUT;
    const char *fault = NULL;
    while ((code = gt_terminal_apdu(terminal, apdu, &n, &most)) == GT_OK && fault == NULL) {
        line_begin_command(session->line);
        fault = t1_carry(&session->t1, apdu, n, known, response, sizeof response, &len);
        if (fault == NULL && (code = gt_terminal_responded(terminal, response, len)) != GT_OK)
            fault = gt_text(code);
        if (fault == NULL && known != GT_IN_PART)
            known = response[len - 2] == 0x61 ? GT_IN_PART : GT_UNKNOWN;
    }
    return fault == NULL && code != GT_NOT_DUE ? gt_text(code) : fault;
}

/* The `pass` of steps.h; `line` is a session. Of a command that was cut short it prints the
 * status. */
static const char *pass(void *line, gt_terminal *terminal, const struct operation *operation)
{
    struct session *session = line;
    const char *fault;
    (void)operation;
    line_forget(session->line);
    fault = session->line->is_of_blocks ? pass_commands(session, terminal)
                                        : t0_pass(&session->t0, terminal, false);
    line_note_text(session->line, NULL);
    if (fault == T0_CUT_SHORT
        && text_print_bytes(stdout, "= ", t0_status(session->line), 2) != NULL)
        return "write fault";
    return fault;
}

static void print_rate(const struct answer *answer)
{
    const gt_atr *says = &answer->says;
    if (says->implicit)
        puts("rate          implicit");
    else if (says->fi == 0 || says->di == 0)
        puts("rate          reserved");
    else
        printf("rate          %lu baud, Fi %u, Di %u\n", answer_rate(answer), (unsigned)says->fi,
               (unsigned)says->di);
}

static void print_number(const char *name, bool is_reserved, int64_t number, const char *unit)
{
    if (is_reserved)
        printf("%sreserved\n", name);
    else
        printf("%s%ld%s\n", name, (long)number, unit);
}

/* The waiting time of T=0, and IFSC, EDC and BWT of T=1, if the card offers these. */
static void print_protocols(const struct answer *answer)
{
    const gt_atr *says = &answer->says;
    const gt_atr_t1 *t1 = &says->t1;
    if (memchr(says->protocols, 0, says->protocol_count) != NULL)
        print_number("waiting time  ", says->waiting_integer == 0,
                     answer_waiting_time(answer) / 1000, " ms");
    if (memchr(says->protocols, 1, says->protocol_count) == NULL)
        return;
    print_number("IFSC          ", t1->ifsc == 0, t1->ifsc, "");
    printf("EDC           %s\n",
           t1->edc == GT_LRC ? "LRC" : t1->edc == GT_CRC ? "CRC" : "reserved");
    print_number("BWT           ", t1->bwt_etu == 0,
                 (t1_times_of(answer->line, t1, answer->clock).bwt - answer->line->slack) / 1000,
                 " ms");
}

/* Prints an answer to reset and what it says. */
static const char *print_meaning(const struct answer *answer)
{
    const gt_atr *says = &answer->says;
    size_t i;
    text_print_bytes(stdout, "answer        ", answer->bytes, answer->n);
    printf("convention    %s\nprotocols    ",
           says->convention == GT_INVERSE ? "inverse" : "direct");
    for (i = 0; i < says->protocol_count; i++)
        printf(" T=%u", (unsigned)says->protocols[i]);
    if (says->specific)
        printf("\nmode          specific, T=%u\n", (unsigned)says->specific_t);
    else
        puts("\nmode          negotiable");
    print_rate(answer);
    printf("guard time    %u etu", (unsigned)says->guard_etu);
    if (says->guard_indicated > 0)
        printf(" and %u times Fi/Di cycles", (unsigned)says->guard_indicated);
    putchar('\n');
    print_protocols(answer);
    if (says->historical_count == 0)
        puts("historical    none");
    else
        text_print_bytes(stdout, "historical    ", answer->bytes + says->historical,
                         says->historical_count);
    return fflush(stdout) == 0 && !ferror(stdout) ? NULL : "write fault";
}

/* Prepares the end at T=1 by the answer to reset. */
static const char *begin_t1(struct session *session, const struct answer *answer)
{
    const gt_atr_t1 *says = &answer->says.t1;
    const int32_t code = gt_t1_new(&session->t1.end, says->edc, says->ifsc, GT_T1_TRIES,
                                   GT_T1_EXTENSIONS, GT_ANSWER_LIMIT);
    session->t1.line = session->line;
    session->t1.times = t1_times_of(session->line, says, answer->clock);
    return code == GT_OK ? NULL : gt_text(code);
}

/* Continues with the protocol of --protocol, or the one that the card offers first. */
static const char *go_on(struct session *session, struct answer *answer)
{
    const int wanted = protocol <= 1 ? (int)protocol : ANSWER_FIRST;
    const char *fault = answer_go_on(answer, answer_protocol(&answer->says, wanted), asks_pps,
                                     &session->t0.waiting_time);
    return fault == NULL && session->line->is_of_blocks ? begin_t1(session, answer) : fault;
}

/* Resets the card, and carries out the steps with it. */
static int run_over(struct gt_port *port, const struct script *script)
{
    struct line line = serial_options_line(&options, port, LINE_TERMINAL);
    struct session session = { NULL, { NULL, 0 }, { NULL, { 0, 0, 0 }, GT_INIT } };
    struct answer answer;
    struct answer_wishes wishes;
    const char *fault;
    int result;
    steps.line = &session;
    session.line = session.t0.line = &line;
    line.patience = (int64_t)patience * 1000000;
    wishes.reset = (enum gt_port_signal)options.reset;
    wishes.is_held_by_on = options.is_held_by_on;
    wishes.opens_again = false;
    wishes.clock = 0;
    wishes.patience = line.patience;
    fault = answer_take(&answer, &line, &wishes);
    if (fault == NULL && script->count == 0)
        fault = print_meaning(&answer);
    if (fault == NULL)
        fault = go_on(&session, &answer);
    result = fault != NULL ? program_tell(fault) : steps_carry_out(&steps, script);
    gt_t1_free(&session.t1.end);
    return result;
}

/* The first word is the tty. */
static int run(char *const *words, size_t count)
{
    static struct gt_port port;
    struct script script;
    const char *fault;
    int result;
    if (count == 0)
        return program_refuse("no tty was provided");
    result = script_read(&script, file, words + 1, count - 1);
    if (result != ALL_WELL)
        return result;
    fault = serial_signals_open(&port, words[0], options.baud);
    result = fault != NULL ? program_tell(fault) : run_over(&port, &script);
    gt_port_close(&port);
    script_free(&script);
    return result;
}

static const struct program PROGRAM = {
    "gt_serial", HELP, OPTIONS, 1, { "", " is not an option" }, { "", " needs a value" }, run
};

int main(int argc, char **argv)
{
    return program_main(&PROGRAM, argc, argv);
}
