#include "steps.h"
#include "program.h"
#include "text.h"

#include <stdio.h>

enum outcome { WELL, NOT_AS_WANTED, FAILED };

/* Begins an operation, and passes it to its answer. */
static const char *carry_out(const struct steps *steps, gt_terminal *terminal,
                             const struct operation *operation)
{
    const int32_t code = operation_begin(operation, terminal);
    return code == GT_OK ? steps->pass(steps->line, terminal, operation) : gt_text(code);
}

/* Prints the answer of the operation that has ended, as card_trace does. */
static const char *print_answer(gt_terminal *terminal, uint16_t *status)
{
    static uint8_t data[GT_RESPONSE_LIMIT];
    char mark[sizeof "= 9000 "];
    size_t n = 0;
    const int32_t code = gt_terminal_answer(terminal, status, data, sizeof data, &n);
    if (code != GT_OK)
        return gt_text(code);
    snprintf(mark, sizeof mark, "= %04X%s", (unsigned)*status, n > 0 ? " " : "");
    return text_print_bytes(stdout, mark, data, n);
}

/* Carries out one step. `fault` gets the text on it, or NULL. */
static enum outcome carry_out_step(const struct steps *steps, gt_terminal *terminal,
                                   const struct operation *operation, const char **fault)
{
    const struct operation get = { OPERATION_GET, operation->tag, NULL, 0 };
    uint16_t status = 0;
    *fault = carry_out(steps, terminal, operation);
    if (*fault == NULL)
        *fault = print_answer(terminal, &status);
    if (*fault != NULL)
        return FAILED;
    *fault = operation_answer_fault(operation, terminal);
    if (steps->verifies && operation->kind == OPERATION_PUT && status == 0x9000) {
        *fault = carry_out(steps, terminal, &get);
        if (*fault != NULL)
            return FAILED;
        *fault = operation_store_fault(operation, terminal);
    }
    return *fault == NULL && status == 0x9000 ? WELL : NOT_AS_WANTED;
}

int steps_carry_out(const struct steps *steps, const struct script *script)
{
    gt_terminal terminal = GT_INIT;
    const int32_t code = gt_terminal_new(&terminal);
    enum outcome outcome = WELL;
    bool is_well = true;
    size_t i;
    if (code != GT_OK)
        return program_tell(gt_text(code));
    for (i = 0; i < script->count && outcome != FAILED && (is_well || steps->goes_on); i++) {
        const struct step *step = &script->steps[i];
        const char *fault;
        outcome = carry_out_step(steps, &terminal, &step->operation, &fault);
        if (fault != NULL)
            fprintf(stderr, "%s %lu: %s\n", script->unit, (unsigned long)step->number, fault);
        is_well = is_well && outcome == WELL;
    }
    gt_terminal_free(&terminal);
    return is_well ? ALL_WELL : FAULT;
}
