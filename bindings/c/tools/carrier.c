#define _POSIX_C_SOURCE 200112L

#include "carrier.h"
#include "text.h"

#include <signal.h>
#include <unistd.h>

/* the bytes of a command before its data */
#define HEADER_SIZE 5

/* Returns what the reader does wrong, by the code of an answer that no terminal takes; for other
 * codes the library's text. */
static const char *fault_text(int32_t code, bool is_by_apdus)
{
    if (code == GT_NO_STATUS)
        return "the reader returns no status";
    if (code != GT_NOT_ASKED && code != GT_TOO_MANY)
        return gt_text(code);
    return is_by_apdus ? "the reader returns more data than the command asks for"
                       : "the reader returns more data than the TPDU asks for: "
                         "it fetches 61XX by itself, so use --apdu";
}

/* whether a line of progress is on the terminal */
static volatile sig_atomic_t is_line_open;

/* Ends that line, and the program as the signal does. */
static void end_line(int number)
{
    if (is_line_open && write(STDERR_FILENO, "\n", 1) < 0)
        is_line_open = 0;
    signal(number, SIG_DFL);
    raise(number);
}

/* Prints how many bytes of a value were sent, on one line that is written over and finally
 * cleared. */
static void show_progress(FILE *progress, size_t gone, size_t all)
{
    if (progress == NULL || all <= 255)
        return;
    if (!is_line_open && signal(SIGINT, end_line) == SIG_IGN)
        signal(SIGINT, SIG_IGN);
    is_line_open = gone < all;
    if (gone < all)
        fprintf(progress, "\r%lu of %lu bytes", (unsigned long)gone, (unsigned long)all);
    else
        fprintf(progress, "\r%30s\r", "");
    fflush(progress);
}

const char *carrier_show_level(const struct carrier *carrier)
{
    if (carrier->shown == NULL)
        return NULL;
    fprintf(carrier->shown, "T=%d, %s\n", reader_protocol(carrier->reader),
            carrier->is_by_apdus ? "APDUs" : "TPDUs");
    return fflush(carrier->shown) == 0 && !ferror(carrier->shown) ? NULL : "write fault";
}

/* Sends the next bytes, and hands what comes back to the terminal. */
static const char *pass_one(const struct carrier *carrier, gt_terminal *terminal,
                            const uint8_t *sent, size_t n)
{
    static uint8_t answer[READER_ROOM];
    size_t length = 0;
    const char *fault = NULL;
    int32_t code;
    if (carrier->shown != NULL)
        fault = text_print_bytes(carrier->shown, "> ", sent, n);
    if (fault == NULL)
        fault = reader_transmit(carrier->reader, sent, n, answer, &length);
    if (fault == NULL && carrier->shown != NULL)
        fault = text_print_bytes(carrier->shown, "< ", answer, length);
    if (fault != NULL)
        return fault;
    code = carrier->is_by_apdus ? gt_terminal_responded(terminal, answer, length)
                                : gt_terminal_answered(terminal, answer, length);
    return code == GT_OK ? NULL : fault_text(code, carrier->is_by_apdus);
}

/* Copies the next bytes to `sent`: GT_OK and `n` bytes, or GT_NOT_DUE after the last. */
static int32_t next_due(const struct carrier *carrier, gt_terminal *terminal,
                        uint8_t sent[GT_APDU_LIMIT], size_t *n)
{
    size_t most;
    return carrier->is_by_apdus ? gt_terminal_apdu(terminal, sent, n, &most)
                                : gt_terminal_tpdu(terminal, sent, n, &most);
}

const char *carrier_pass(void *line, gt_terminal *terminal, const struct operation *operation)
{
    const struct carrier *carrier = line;
    const size_t all = operation->kind == OPERATION_PUT ? operation->n : 0;
    uint8_t sent[GT_APDU_LIMIT];
    size_t n = 0, gone = 0;
    const char *fault = NULL;
    int32_t code;
    while (fault == NULL && (code = next_due(carrier, terminal, sent, &n)) != GT_NOT_DUE) {
        show_progress(carrier->progress, gone, all);
        fault = code == GT_OK ? pass_one(carrier, terminal, sent, n) : gt_text(code);
        gone += n > HEADER_SIZE ? n - HEADER_SIZE : 0;
    }
    show_progress(carrier->progress, all, all);
    return fault;
}
