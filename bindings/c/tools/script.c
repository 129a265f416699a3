#define _POSIX_C_SOURCE 200112L

#include "script.h"
#include "program.h"

#include <errno.h>
#include <stdio.h>
#include <stdlib.h>
#include <string.h>

/* the fewest bytes of a line with an operation, its end included: `get 50` */
enum { SHORTEST = 7 };

/* Functions of text return NULL, or why there is no script; the text stays until the next call. */

/* Refuses a step of the script; its unit and number precede the text. */
static const char *refuse_step(const struct script *script, size_t number, const char *text)
{
    return text_told("%s %lu: %s", script->unit, (unsigned long)number, text);
}

/* Adds the operation that these words say. */
static const char *add(struct script *script, size_t number, char *const *words, size_t count,
                       bool *is_of_words)
{
    const char *fault =
        operation_read(&script->steps[script->count].operation, words, count, is_of_words);
    if (fault != NULL)
        return refuse_step(script, number, fault);
    script->steps[script->count++].number = number;
    return NULL;
}

static const char *add_words(struct script *script, char *const *words, size_t count,
                             bool *is_of_words)
{
    const char *fault = NULL;
    size_t at = 0, number = 1;
    script->steps = malloc((count + 1) * sizeof *script->steps);
    if (script->steps == NULL)
        return gt_text(GT_MEMORY);
    while (at < count && fault == NULL) {
        const size_t wanted = operation_word_count(words[at]);
        const size_t n = wanted == 0 ? 1 : wanted < count - at ? wanted : count - at;
        fault = add(script, number++, words + at, n, is_of_words);
        at += n;
    }
    return fault;
}

/* Reads one line, which ends at a NUL; a NUL inside it is a character of no word, read as \x01. */
static const char *add_line(struct script *script, size_t number, char *line, size_t n)
{
    char *words[OPERATION_WORDS + 1], *rest = NULL;
    const bool has_nul = strlen(line) != n;
    const char *fault;
    size_t count = 0, i;
    bool is_of_words;
    if (line[0] == '#')
        return NULL;
    if (strncmp(line, "\xEF\xBB\xBF", 3) == 0)
        return refuse_step(script, number, OPERATION_UNKNOWN_WORD ": a byte order mark");
    for (i = 0; has_nul && i < n; i++) {
        if (line[i] == '\0')
            line[i] = '\x01';
    }
    for (; count <= OPERATION_WORDS && (words[count] = strtok_r(line, " ", &rest)) != NULL; count++)
        line = NULL;
    fault = count == 0 ? NULL : add(script, number, words, count, &is_of_words);
    return fault == NULL && has_nul ? refuse_step(script, number, "bad hex") : fault;
}

/* Reads the lines of a text, each ended by an LF, or a CR and an LF; the last may lack its LF. */
static const char *add_lines(struct script *script, char *text, size_t n)
{
    const char *fault = NULL;
    size_t at = 0, number = 1;
    while (at < n && fault == NULL) {
        char *line = text + at;
        char *end = memchr(line, '\n', n - at);
        size_t size = end != NULL ? (size_t)(end - line) : n - at;
        at += size + 1;
        if (end != NULL && size > 0 && line[size - 1] == '\r')
            size--;
        line[size] = '\0';
        fault = add_line(script, number++, line, size);
    }
    return fault;
}

static const char *add_file(struct script *script, FILE *file, const char *name)
{
    /* one byte more than a script has shows that it is too long */
    char *text = malloc(SCRIPT_SIZE_LIMIT + 2);
    const char *fault = NULL;
    size_t n;
    if (text == NULL)
        return gt_text(GT_MEMORY);
    n = fread(text, 1, SCRIPT_SIZE_LIMIT + 1, file);
    text[n] = '\0';
    if (ferror(file))
        fault = text_fault("read fault", name, strerror(errno));
    else if (n > SCRIPT_SIZE_LIMIT)
        fault = text_quoted("input too long: ", name, "");
    else if ((script->steps = malloc((n / SHORTEST + 1) * sizeof *script->steps)) == NULL)
        fault = gt_text(GT_MEMORY);
    else
        fault = add_lines(script, text, n);
    free(text);
    return fault == NULL && script->count == 0 ? text_quoted("no operation in ", name, "") : fault;
}

int script_read(struct script *script, const char *name, char *const *words, size_t count)
{
    FILE *file = stdin;
    const char *fault;
    bool is_of_words = false;
    memset(script, 0, sizeof *script);
    script->unit = name == NULL ? "operation" : "line";
    if (name != NULL && count > 0)
        return program_refuse("operations are either words or in FILE");
    if (name != NULL && strcmp(name, "-") != 0)
        file = fopen(name, "rb");
    if (file == NULL)
        return program_tell(text_fault("read fault", name, strerror(errno)));
    fault = name == NULL ? add_words(script, words, count, &is_of_words)
                         : add_file(script, file, name);
    if (file != stdin)
        fclose(file);
    if (fault == NULL)
        return ALL_WELL;
    script_free(script);
    return is_of_words ? program_refuse(fault) : program_tell(fault);
}

void script_free(struct script *script)
{
    size_t i;
    for (i = 0; i < script->count; i++)
        operation_free(&script->steps[i].operation);
    free(script->steps);
    memset(script, 0, sizeof *script);
}
