/* An operation with a card, from its words. */
#ifndef OPERATION_H
#define OPERATION_H

#include <galliumtoad.h>

#include <stdbool.h>

/* the most bytes of a value that is put: 64 pieces of a chain, as in a script of card_trace */
#define OPERATION_VALUE_LIMIT 16320

enum operation_kind { OPERATION_SELECT, OPERATION_GET, OPERATION_PUT, OPERATION_SEND };

struct operation {
    enum operation_kind kind;
    uint32_t tag;       /* for a get and a put */
    uint8_t *bytes;     /* the identifier, the value or the command; NULL if it has no bytes */
    size_t n;
};

/* the most words of an operation, the first one included */
#define OPERATION_WORDS 3

/* Returns how many words an operation with this first word has, the first one included. 0: no
 * operation begins so. */
size_t operation_word_count(const char *first);

/* The words of a command line that are no options: they are moved to its front. */
struct operation_words {
    char **words;
    size_t count;
    size_t first;       /* the place of the first word of the operation in progress */
    bool is_ended;      /* after `--` there are no options */
};

/* Takes the next word, or returns false if it is an option. That has a dash and more, and no `--`
 * before it. But the word after `put TAG` is a value, whatever it begins with. */
bool operation_take_word(struct operation_words *its, char *word);

/* the text for a word that begins no operation, which may follow it */
#define OPERATION_UNKNOWN_WORD "unknown word"

/* Reads an operation from its words: `select AID`, `get TAG`, `put TAG VALUE`, `send HEX`. The
 * words are those of a script of card_trace. VALUE may be `@` with the name of a file, whose bytes
 * are the value. Returns NULL, or a few words that say why it is refused, as card_trace has them.
 * After `unknown word` comes that word, and after `bad hex`, `bad tag` and `read fault` the word or
 * the file, and why. The text stays until the next call. Nothing is held then, and `is_of_words`
 * says that no file or machine is to blame. */
const char *operation_read(struct operation *operation, char *const *words, size_t count,
                           bool *is_of_words);

/* Begins the operation at a terminal. Returns a code of galliumtoad.h. */
int32_t operation_begin(const struct operation *operation, gt_terminal *terminal);

/* Returns why the answer does not fit the operation, or NULL: 9000 answers a get with one object of
 * its tag. The words stay until the next call. */
const char *operation_answer_fault(const struct operation *operation, gt_terminal *terminal);

/* Returns why the terminal's answer to a get shows that this put, of the same tag, was not stored
 * as sent; NULL if the answer is the object, or its value alone. The words stay until the next
 * call. */
const char *operation_store_fault(const struct operation *put, gt_terminal *terminal);

/* Frees the memory. */
void operation_free(struct operation *operation);

#endif
