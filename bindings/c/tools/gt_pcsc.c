/* gt_pcsc: reads and writes the data objects of a card in a PC/SC reader. The library's terminal is
 * proved. This program takes its TPDUs or whole commands to the reader and the answers back.
 * `gt_pcsc --help` says what it does. */
#define _POSIX_C_SOURCE 200112L

#include "carrier.h"
#include "program.h"
#include "steps.h"

#include <stdio.h>
#include <unistd.h>

/* the lines of gt_pcsc.help */
static const char HELP[] =
#include "gt_pcsc_help.h"
    ;

static bool lists, shows_tpdus, forces_apdus;
static const char *reader_name, *file, *seconds, *protocol_word;
static struct steps steps = { carrier_pass, NULL, false, false };

static const struct option OPTIONS[] = {
    { "-l", OPTION_ON, &lists, 0, 0, NO_NAMES },
    { "-v", OPTION_ON, &shows_tpdus, 0, 0, NO_NAMES },
    { "-k", OPTION_ON, &steps.goes_on, 0, 0, NO_NAMES },
    { "-r", OPTION_WORD, &reader_name, 0, 0, NO_NAMES },
    { "-f", OPTION_WORD, &file, 0, 0, NO_NAMES },
    { "--verify", OPTION_ON, &steps.verifies, 0, 0, NO_NAMES },
    { "--protocol", OPTION_WORD, &protocol_word, 0, 0, NO_NAMES },
    { "--apdu", OPTION_ON, &forces_apdus, 0, 0, NO_NAMES },
    { "--wait", OPTION_WORD, &seconds, 0, 0, NO_NAMES },
    { NULL, OPTION_ON, NULL, 0, 0, NO_NAMES },
};

/* The most seconds of --wait: a day, with at most five digits. */
enum { WAIT_LIMIT = 86400 };

/* Opens the reader, carries out the steps, and closes it, whatever their result. */
static int run_steps(const struct script *script, int protocol, long wait)
{
    struct reader reader;
    struct carrier carrier;
    const char *fault = reader_open(&reader, reader_name, protocol, wait);
    int result;
    carrier.reader = &reader;
    carrier.is_by_apdus = forces_apdus || reader_takes_apdus(&reader);
    carrier.shown = shows_tpdus ? stdout : NULL;
    carrier.progress = isatty(STDERR_FILENO) && !shows_tpdus ? stderr : NULL;
    steps.line = &carrier;
    if (fault == NULL)
        fault = carrier_show_level(&carrier);
    result = fault != NULL ? program_tell(fault) : steps_carry_out(&steps, script);
    fault = reader_close(&reader);
    return result == ALL_WELL && fault != NULL ? program_tell(fault) : result;
}

static int list_readers(bool is_alone)
{
    const char *fault;
    if (!is_alone)
        return program_refuse("-l cannot be used with operations, -r or -f");
    fault = reader_list(stdout);
    return fault == NULL ? program_end_output() : program_tell(fault);
}

static int run(char *const *words, size_t count)
{
    struct script script;
    const long wait = seconds != NULL ? (long)program_number(seconds, 5, WAIT_LIMIT) : -1;
    const int protocol = protocol_word != NULL ? (int)program_number(protocol_word, 1, 1) : -1;
    int result;
    if (lists)
        return list_readers(count == 0 && file == NULL && reader_name == NULL);
    if (file == NULL && count == 0)
        return program_refuse("no operation was provided");
    if (wait > WAIT_LIMIT)
        return program_refuse("'--wait' takes a number from 0 to 86400");
    if (protocol > 1)
        return program_refuse("'--protocol' takes 0 or 1");
    result = script_read(&script, file, words, count);
    if (result != ALL_WELL)
        return result;
    result = run_steps(&script, protocol, wait);
    script_free(&script);
    return result;
}

static const struct program PROGRAM = {
    "gt_pcsc", HELP, OPTIONS, 0,
    { "unexpected argument ", " found" },
    { "a value is required for ", " but none was supplied" },
    run
};

int main(int argc, char **argv)
{
    return program_main(&PROGRAM, argc, argv);
}
