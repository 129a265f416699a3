#include "program.h"
#include "operation.h"
#include "system.h"

#include <stdio.h>
#include <stdlib.h>
#include <string.h>

#define NUMBER(number) #number
#define DOTTED(major, minor, patch) NUMBER(major) "." NUMBER(minor) "." NUMBER(patch)

/* The options of each program. */
static bool helps, tells_version;
static const struct option SHARED[] = {
    { "-h", OPTION_ON, &helps, 0, 0, NO_NAMES },
    { "--help", OPTION_ON, &helps, 0, 0, NO_NAMES },
    { "-V", OPTION_ON, &tells_version, 0, 0, NO_NAMES },
    { "--version", OPTION_ON, &tells_version, 0, 0, NO_NAMES },
    { NULL, OPTION_ON, NULL, 0, 0, NO_NAMES },
};

/* the program that runs */
static const struct program *own;

char program_told[TEXT_ROOM];

int program_tell(const char *fault)
{
    fprintf(stderr, "%s\n", fault);
    return FAULT;
}

int program_refuse(const char *fault)
{
    const char *usage = strstr(own->help, "Usage:");
    fprintf(stderr, "error: %s\n\n%.*s\n\nFor more information, try '--help'.\n", fault,
            (int)(strstr(usage, "\n\n") - usage), usage);
    return BAD_WORDS;
}

int program_end_output(void)
{
    return fflush(stdout) == 0 && !ferror(stdout) ? ALL_WELL : program_tell("write fault");
}

unsigned long program_number(const char *word, size_t digits, unsigned long most)
{
    const size_t n = strspn(word, "0123456789");
    return n > 0 && n <= digits && word[n] == '\0' ? strtoul(word, NULL, 10) : most + 1;
}

/* Each of these returns NULL, or why the words are refused. The text stays until the next call. */

static const char *read_number(const struct option *option, const char *word)
{
    const unsigned long found = program_number(word, 9, option->most);
    if (found < option->least || found > option->most)
        return text_told("'%s' takes a number from %lu to %lu", option->name, option->least,
                         option->most);
    *(unsigned long *)option->field = found;
    return NULL;
}

static const char *read_name(const struct option *option, const char *word)
{
    unsigned long place = option->least;
    while (place <= option->most && strcmp(option->names[place], word) != 0)
        place++;
    if (place > option->most)
        return text_quoted("", word, option->no_name);
    *(int *)option->field = (int)place;
    return NULL;
}

static const char *add_word(const struct option *option, const char *word)
{
    const char **words = option->field;
    const size_t most = option->kind == OPTION_WORDS ? option->most : 1;
    size_t n = 0;
    while (n < most && words[n] != NULL)
        n++;
    if (n == most)
        return text_quoted("", option->name, option->kind == OPTION_WORDS
                                                 ? " is used too often"
                                                 : " cannot be used multiple times");
    words[n] = word;
    return NULL;
}

/* Reads an option; `word` is the word after it, or NULL. */
static const char *read_value(const struct option *option, const char *word)
{
    if (word == NULL)
        return text_quoted(own->lacking[0], option->name, own->lacking[1]);
    if (option->kind == OPTION_NUMBER)
        return read_number(option, word);
    return option->kind == OPTION_NAME ? read_name(option, word) : add_word(option, word);
}

/* The option with this name, or NULL. */
static const struct option *option_of(const struct option *options, const char *name)
{
    while (options->name != NULL && strcmp(options->name, name) != 0)
        options++;
    return options->name != NULL ? options : NULL;
}

static const char *read_option(char *const *argv, int *at)
{
    const char *word = argv[*at];
    const struct option *option = option_of(own->options, word);
    if (option == NULL)
        option = option_of(SHARED, word);
    if (option == NULL)
        return text_quoted(own->unknown[0], word, own->unknown[1]);
    if (option->kind != OPTION_ON && option->kind != OPTION_OFF)
        return read_value(option, argv[++*at]);
    *(bool *)option->field = option->kind == OPTION_ON;
    return NULL;
}

int program_main(const struct program *program, int argc, char **argv)
{
    struct operation_words words = { NULL, 0, program->words_before, false };
    const char *fault = NULL;
    int at;
    own = program;
    if (!system_begin())
        return FAULT;
    words.words = argv + 1;
    for (at = 1; at < argc && fault == NULL; at++) {
        if (!operation_take_word(&words, argv[at]))
            fault = read_option(argv, &at);
    }
    if (fault != NULL)
        return program_refuse(fault);
    if (!helps && !tells_version)
        return program->run(words.words, words.count);
    if (helps)
        fputs(program->help, stdout);
    else
        printf("%s %s\n", program->name,
               DOTTED(GT_VERSION_MAJOR, GT_VERSION_MINOR, GT_VERSION_PATCH));
    return program_end_output();
}
