#include "serial_settings.h"
#include "serial_line.h"
#include "serial_options.h"

#include <stdlib.h>
#include <string.h>

/* the most bytes of a DEVICENAME with its NUL, more than pcscd reads, and the most digits of a
 * number */
enum { DEVICE_ROOM = 512, DIGITS = 9 };

static const char *const WORDS[] = { "no", "yes" };
/* the lines that show a card, in the order of their numbers, and the number that none has */
static const char *const PRESENCES[] = { "cts", "dsr", "dcd", "always" };

#define FIELD(name) offsetof(struct serial_settings, name)

static const struct row {
    const char *name;
    size_t field;
    unsigned long initial, least, most;
    const char *const *names;   /* of the values from `least` to `most`, or NULL: numbers */
} ROWS[] = {
    { "reset", FIELD(reset), GT_PORT_RTS, GT_PORT_RTS, GT_PORT_DTR, SERIAL_SIGNALS },
    { "held-by", FIELD(held_by), 1, 0, 1, SERIAL_STATES },
    { "echo", FIELD(echo), 1, 0, 1, WORDS },
    { "presence", FIELD(presence), GT_PORT_NONE, GT_PORT_CTS, GT_PORT_NONE, PRESENCES },
    { "present-by", FIELD(present_by), 1, 0, 1, SERIAL_STATES },
    { "pps", FIELD(pps), 0, 0, 1, WORDS },
    { "baud", FIELD(baud), SERIAL_BAUD, SERIAL_BAUD_LEAST, SERIAL_BAUD_MOST, NULL },
    { "clock", FIELD(clock), 0, 1000000, 20000000, NULL },
    { "slack", FIELD(slack), SERIAL_SLACK, 0, SERIAL_SLACK_MOST, NULL },
    { "quiet", FIELD(quiet), LINE_LATE, LINE_LATE, SERIAL_QUIET_MOST, NULL },
    { "patience", FIELD(patience), SERIAL_PATIENCE, 1, SERIAL_PATIENCE_MOST, NULL },
};

enum { ROWS_COUNT = sizeof ROWS / sizeof ROWS[0] };

static unsigned long *field_of(struct serial_settings *settings, const struct row *row)
{
    return (unsigned long *)(void *)((char *)settings + row->field);
}

/* The value of a word; one above `most` if the row has none of that name, or no such number. */
static unsigned long value_of(const struct row *row, const char *word)
{
    const size_t n = strspn(word, "0123456789");
    const bool is_number = n > 0 && n <= DIGITS && word[n] == '\0';
    unsigned long value = row->least;
    if (row->names == NULL) {
        value = is_number ? strtoul(word, NULL, 10) : row->most + 1;
        return value >= row->least ? value : row->most + 1;
    }
    while (value <= row->most && strcmp(row->names[value], word) != 0)
        value++;
    return value;
}

/* Why the row has no such value. */
static const char *tell_value(const struct row *row, const char *word, char told[TEXT_ROOM])
{
    char choice[TEXT_ROOM];
    unsigned long value;
    text_put(choice, "; '%s' takes ", row->name);
    if (row->names == NULL)
        text_put(choice, "%sa number from %lu to %lu", choice, row->least, row->most);
    for (value = row->least; row->names != NULL && value <= row->most; value++)
        text_put(choice, "%s%s%s", choice,
                 value == row->least ? "" : value == row->most ? " or " : ", ", row->names[value]);
    return text_put_quoted(told, "wrong setting: ", word, choice);
}

/* Reads a word `NAME=VALUE`. */
static const char *read_word(struct serial_settings *settings, const char *word,
                             char told[TEXT_ROOM])
{
    const size_t n = strcspn(word, "=");
    size_t i;
    for (i = 0; i < ROWS_COUNT; i++) {
        const struct row *row = &ROWS[i];
        if (word[n] != '=' || strlen(row->name) != n || strncmp(row->name, word, n) != 0)
            continue;
        *field_of(settings, row) = value_of(row, word + n + 1);
        return *field_of(settings, row) <= row->most ? NULL : tell_value(row, word, told);
    }
    return text_put_quoted(told, "unknown setting: ", word, "");
}

/* Reads the words after the tty. */
static const char *read_words(struct serial_settings *settings, char *words, char told[TEXT_ROOM])
{
    const char *fault = NULL;
    while (*words != '\0' && fault == NULL) {
        const size_t n = strcspn(words, ",");
        const bool is_last = words[n] == '\0';
        words[n] = '\0';
        fault = read_word(settings, words, told);
        words += is_last ? n : n + 1;
    }
    return fault;
}

/* pcscd leaves the quotes around a text. */
const char *serial_settings_read(struct serial_settings *settings, const char *text,
                                 char told[TEXT_ROOM])
{
    const bool is_quoted = text[0] == '"';
    char plain[DEVICE_ROOM], *colon;
    size_t i, n = strlen(text);
    memset(settings, 0, sizeof *settings);
    for (i = 0; i < ROWS_COUNT; i++)
        *field_of(settings, &ROWS[i]) = ROWS[i].initial;
    if (n >= sizeof plain)
        return text_put_quoted(told, "too long: ", text, "");
    strcpy(plain, text + is_quoted);
    n = strlen(plain);
    if (is_quoted && n > 0 && plain[n - 1] == '"')
        plain[n - 1] = '\0';
    colon = strrchr(plain, ':');
    if (colon != NULL)
        *colon = '\0';
    if (plain[0] == '\0' || strlen(plain) >= sizeof settings->tty)
        return text_put_quoted(told, "no tty: ", text, "");
    strcpy(settings->tty, plain);
    return colon != NULL ? read_words(settings, colon + 1, told) : NULL;
}
