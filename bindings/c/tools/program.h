/* What gt_pcsc, gt_serial and serial_card share: standard descriptors, the options of a command
 * line, help and version, and how a fault ends a program. */
#ifndef PROGRAM_H
#define PROGRAM_H

#include "text.h"

#include <stdbool.h>
#include <stddef.h>

enum { ALL_WELL = 0, FAULT = 1, BAD_WORDS = 2 };

/* What an option sets. */
enum option_kind {
    OPTION_ON, OPTION_OFF,  /* a bool */
    OPTION_WORD,            /* a const char *: the word after it, which may come once */
    OPTION_WORDS,           /* a list of them that ends in NULL: at most `most` */
    OPTION_NUMBER,          /* an unsigned long, from `least` to `most`; the last one counts */
    OPTION_NAME             /* an int: the place among `names`, from `least` to `most`; the same */
};

struct option {
    const char *name;
    enum option_kind kind;
    void *field;
    unsigned long least, most;
    const char *const *names;
    const char *no_name;    /* the text behind a word that is no name */
};

#define NO_NAMES NULL, NULL

struct program {
    const char *name;
    const char *help;
    const struct option *options;   /* NULL ends their names */
    size_t words_before;            /* how many words precede the first operation */
    const char *unknown[2];         /* the text around a word that is no option */
    const char *lacking[2];         /* the text around an option that lacks its word */
    /* Carries out the words that are no options, and returns the exit status. */
    int (*run)(char *const *words, size_t count);
};

/* The `main` of a program. Options may be anywhere, except that `--` ends them, and the word after
 * `put TAG` is a value, whatever it begins with. */
int program_main(const struct program *program, int argc, char **argv);

/* The program's own place for the texts of text.h. A text stays until the next one. */
extern char program_told[TEXT_ROOM];
#define text_told(...) text_put(program_told, __VA_ARGS__)
#define text_quoted(before, word, behind) text_put_quoted(program_told, before, word, behind)
#define text_fault(what, word, why) text_put_fault(program_told, what, word, why)

/* Prints a fault, and returns the exit status. */
int program_tell(const char *fault);

/* The same of words that are refused: the usage follows. */
int program_refuse(const char *fault);

/* Flushes what was printed, and returns the exit status. */
int program_end_output(void);

/* A number of at most this many digits; one above `most` if the word is not one. */
unsigned long program_number(const char *word, size_t digits, unsigned long most);

#endif
