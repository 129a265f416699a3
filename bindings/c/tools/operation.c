#include "operation.h"
#include "program.h"

#include <errno.h>
#include <stdio.h>
#include <stdlib.h>
#include <string.h>

#define TOO_LONG "value too long"

/* the longest number after `HH*` */
#define REPEAT_LIMIT 65535

#define TAG_RULE \
    "neither 40 to FE without 5F, 7F, 9F, BF and DF, nor one of these or FF and then 01 to 7F"

/* Whether a file or the machine is to blame for the last refusal, and not the words. */
static bool is_of_machine;

static const char *machine_fault(const char *fault)
{
    is_of_machine = true;
    return fault;
}

/* The first word of each kind, and its number of words; its place is its kind. */
static const struct {
    const char *word;
    size_t count;
} KINDS[] = { { "select", 2 }, { "get", 2 }, { "put", 3 }, { "send", 2 } };

enum { KIND_COUNT = sizeof KINDS / sizeof KINDS[0] };

/* The kind that begins with this word, or KIND_COUNT. */
static size_t kind_of(const char *first)
{
    size_t kind = 0;
    while (kind < KIND_COUNT && strcmp(KINDS[kind].word, first) != 0)
        kind++;
    return kind;
}

size_t operation_word_count(const char *first)
{
    const size_t kind = kind_of(first);
    return kind < KIND_COUNT ? KINDS[kind].count : 0;
}

bool operation_take_word(struct operation_words *its, char *word)
{
    const bool is_value = its->count == its->first + OPERATION_WORDS - 1;
    if (!is_value && !its->is_ended && word[0] == '-' && word[1] != '\0') {
        its->is_ended = strcmp(word, "--") == 0;
        return its->is_ended;
    }
    its->words[its->count++] = word;
    if (its->count > its->first
        && its->count >= its->first + operation_word_count(its->words[its->first]))
        its->first = its->count;
    return true;
}

/* Each of these returns NULL, or why the operation is refused. */

/* Room for the bytes of an operation, at least one. */
static const char *take_room(struct operation *operation, size_t n)
{
    operation->bytes = malloc(n > 0 ? n : 1);
    operation->n = n;
    return operation->bytes != NULL ? NULL : machine_fault(gt_text(GT_MEMORY));
}

static const char *read_hex(struct operation *operation, const char *word)
{
    const size_t n = text_hex_size(word);
    const char *fault = n > 0 ? take_room(operation, n)
                              : text_fault("bad hex", word, text_hex_fault(word));
    if (fault == NULL)
        text_hex_bytes(word, operation->bytes);
    return fault;
}

static const char *read_aid(struct operation *operation, const char *word)
{
    const char *fault = read_hex(operation, word);
    if (fault == NULL && (operation->n < GT_AID_LEAST || operation->n > GT_AID_LIMIT))
        return "bad aid";
    return fault;
}

/* Whether a terminal accepts the operation, so that a bad one is refused before there is a card.
 * For a tag, which `word` is, it says whether a command can name it. */
static const char *try_to_begin(const struct operation *operation, const char *word)
{
    gt_terminal terminal = GT_INIT;
    int32_t code = gt_terminal_new(&terminal);
    if (code == GT_OK)
        code = operation_begin(operation, &terminal);
    gt_terminal_free(&terminal);
    if (code == GT_ARGUMENT)
        return text_fault("bad tag", word, TAG_RULE);
    if (code == GT_MEMORY)
        return machine_fault(gt_text(code));
    return code == GT_OK ? NULL : gt_text(code);
}

/* A tag's number is that of its one or two bytes. */
static const char *read_tag(struct operation *operation, const char *word)
{
    const size_t n = text_hex_size(word);
    struct operation get = { OPERATION_GET, 0, NULL, 0 };
    uint8_t bytes[2];
    if (n == 0)
        return text_fault("bad hex", word, text_hex_fault(word));
    if (n > sizeof bytes || (n == 2 && strncmp(word, "00", 2) == 0))
        return text_fault("bad tag", word, TAG_RULE);
    text_hex_bytes(word, bytes);
    get.tag = n == 2 ? (uint32_t)bytes[0] << 8 | bytes[1] : bytes[0];
    operation->tag = get.tag;
    return try_to_begin(&get, word);
}

/* How often `HH*N` repeats its byte, 1 to REPEAT_LIMIT in digits without a leading zero, or 0. */
static unsigned long times_of(const char *digits)
{
    const size_t n = strspn(digits, "0123456789");
    unsigned long times;
    if (n == 0 || n > 5 || digits[n] != '\0' || digits[0] == '0')
        return 0;
    times = strtoul(digits, NULL, 10);
    return times <= REPEAT_LIMIT ? times : 0;
}

static const char *read_repeated(struct operation *operation, const char *word)
{
    char pair[3] = { word[0], word[1], '\0' };
    const unsigned long times = times_of(word + 3);
    const char *fault;
    uint8_t byte;
    if (text_hex_size(pair) != 1 || times == 0)
        return text_fault("bad hex", word, "not HH*N with N from 1 to 65535");
    if (times > OPERATION_VALUE_LIMIT)
        return TOO_LONG;
    fault = take_room(operation, times);
    text_hex_bytes(pair, &byte);
    if (fault == NULL)
        memset(operation->bytes, byte, times);
    return fault;
}

/* Reads the bytes of a file, which may be a pipe: it reads once, to the end. */
static const char *read_file(struct operation *operation, const char *name)
{
    FILE *file = fopen(name, "rb");
    const char *fault;
    if (file == NULL)
        return machine_fault(text_fault("read fault", name, strerror(errno)));
    fault = take_room(operation, OPERATION_VALUE_LIMIT + 1);
    if (fault == NULL) {
        operation->n = fread(operation->bytes, 1, OPERATION_VALUE_LIMIT + 1, file);
        if (ferror(file))
            fault = machine_fault(text_fault("read fault", name, strerror(errno)));
        else if (operation->n > OPERATION_VALUE_LIMIT)
            fault = TOO_LONG;
    }
    fclose(file);
    return fault;
}

static const char *read_value(struct operation *operation, const char *word)
{
    if (strcmp(word, "-") == 0)
        return NULL;
    if (word[0] == '@')
        return read_file(operation, word + 1);
    if (strlen(word) > 3 && word[2] == '*')
        return read_repeated(operation, word);
    return text_hex_size(word) > OPERATION_VALUE_LIMIT ? TOO_LONG : read_hex(operation, word);
}

static const char *read_words(struct operation *operation, char *const *words)
{
    const char *fault;
    switch (operation->kind) {
    case OPERATION_SELECT: return read_aid(operation, words[1]);
    case OPERATION_GET: return read_tag(operation, words[1]);
    case OPERATION_SEND:
        fault = read_hex(operation, words[1]);
        return fault == NULL ? try_to_begin(operation, words[1]) : fault;
    default:
        fault = read_tag(operation, words[1]);
        return fault == NULL ? read_value(operation, words[2]) : fault;
    }
}

const char *operation_read(struct operation *operation, char *const *words, size_t count,
                           bool *is_of_words)
{
    const size_t kind = kind_of(words[0]);
    const char *fault = NULL;
    memset(operation, 0, sizeof *operation);
    is_of_machine = false;
    if (kind == KIND_COUNT)
        fault = text_quoted(OPERATION_UNKNOWN_WORD ": ", words[0], "");
    else if (count != KINDS[kind].count)
        fault = "wrong number of words";
    operation->kind = (enum operation_kind)kind;
    if (fault == NULL)
        fault = read_words(operation, words);
    if (fault != NULL)
        operation_free(operation);
    *is_of_words = !is_of_machine;
    return fault;
}

int32_t operation_begin(const struct operation *operation, gt_terminal *terminal)
{
    switch (operation->kind) {
    case OPERATION_SELECT: return gt_terminal_select(terminal, operation->bytes, operation->n);
    case OPERATION_GET: return gt_terminal_get(terminal, operation->tag);
    case OPERATION_PUT:
        return gt_terminal_put(terminal, operation->tag, operation->bytes, operation->n);
    default: return gt_terminal_send(terminal, operation->bytes, operation->n);
    }
}

/* the data of the last answer checked */
static uint8_t data[GT_RESPONSE_LIMIT];

/* Whether the terminal's answer is 9000, with `n` bytes of data. */
static bool is_answered_well(gt_terminal *terminal, size_t *n)
{
    uint16_t status;
    return gt_terminal_answer(terminal, &status, data, sizeof data, n) == GT_OK
        && status == 0x9000;
}

const char *operation_answer_fault(const struct operation *operation, gt_terminal *terminal)
{
    const unsigned tag = operation->tag;
    size_t n;
    if (operation->kind != OPERATION_GET || !is_answered_well(terminal, &n)
        || gt_is_object(data, n, tag))
        return NULL;
    return text_told("the answer is not the object %02X; "
                     "if the card sends the value alone, use send 00CA%04X00", tag, tag);
}

/* Whether these bytes are the value of a put. */
static bool is_value(const struct operation *put, const uint8_t *bytes, size_t n)
{
    return n == put->n && (n == 0 || memcmp(bytes, put->bytes, n) == 0);
}

const char *operation_store_fault(const struct operation *put, gt_terminal *terminal)
{
    gt_object object;
    size_t n, place;
    if (is_answered_well(terminal, &n)
        && (is_value(put, data, n)
            || (gt_find(data, n, &put->tag, 1, &object, &place) == GT_OK && object.size == n
                && is_value(put, data + object.value, object.length))))
        return NULL;
    return text_told("%02X was not stored as sent", (unsigned)put->tag);
}

void operation_free(struct operation *operation)
{
    free(operation->bytes);
    memset(operation, 0, sizeof *operation);
}
