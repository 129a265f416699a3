#include "text.h"

#include <stdarg.h>
#include <stdio.h>
#include <stdlib.h>
#include <string.h>

size_t text_hex_size(const char *digits)
{
    return text_hex_fault(digits) == NULL ? strlen(digits) / 2 : 0;
}

void text_hex_bytes(const char *digits, uint8_t *out)
{
    const size_t n = text_hex_size(digits);
    size_t i;
    for (i = 0; i < n; i++) {
        const char two[3] = { digits[2 * i], digits[2 * i + 1], '\0' };
        out[i] = (uint8_t)strtoul(two, NULL, 16);
    }
}

const char *text_hex_fault(const char *digits)
{
    const size_t n = strspn(digits, "0123456789ABCDEFabcdef");
    if (digits[n] != '\0')
        return "a character that is not a digit";
    if (n == 0)
        return "no digits";
    return n % 2 == 0 ? NULL : "an odd number of digits";
}

/* How many bytes the character here has. A byte that is no character of UTF-8 is one. */
static size_t character(const char *text)
{
    const unsigned char first = (unsigned char)text[0];
    const size_t n = first >= 0xF0 ? 4 : first >= 0xE0 ? 3 : first >= 0xC2 ? 2 : 1;
    size_t i;
    for (i = 1; i < n; i++) {
        if (((unsigned char)text[i] & 0xC0) != 0x80)
            return 1;
    }
    return n;
}

/* Whether a character would control a terminal: one of C0, DEL, or C1, alone or in UTF-8. */
static bool is_control(const char *text, size_t n)
{
    const unsigned char last = (unsigned char)text[n - 1];
    return (n == 1 && (last < ' ' || last == 0x7F || (last >= 0x80 && last < 0xA0)))
        || (n == 2 && text[0] == '\xC2' && last < 0xA0);
}

void text_calm(char *text)
{
    size_t n;
    for (; *text != '\0'; text += n) {
        n = character(text);
        if (is_control(text, n))
            memset(text, '?', n);
    }
}

void text_print(FILE *out, const char *text)
{
    size_t n;
    for (; *text != '\0'; text += n) {
        n = character(text);
        if (is_control(text, n))
            fputs(n == 1 ? "?" : "??", out);
        else
            fwrite(text, 1, n, out);
    }
}

const char *text_print_bytes(FILE *out, const char *mark, const uint8_t *bytes, size_t n)
{
    size_t i;
    fputs(mark, out);
    for (i = 0; i < n; i++)
        fprintf(out, "%02X", bytes[i]);
    fputc('\n', out);
    return fflush(out) == 0 && !ferror(out) ? NULL : "write fault";
}

/* A value may be the text of the place, so the next one is made in another. */
const char *text_put(char place[TEXT_ROOM], const char *format, ...)
{
    char text[TEXT_ROOM];
    va_list values;
    va_start(values, format);
    vsnprintf(text, sizeof text, format, values);
    va_end(values);
    return strcpy(place, text);
}

const char *text_put_quoted(char place[TEXT_ROOM], const char *before, const char *word,
                            const char *behind)
{
    text_put(place, "%s'%.60s%s'%s", before, word, strlen(word) > 60 ? ".." : "", behind);
    text_calm(place);
    return place;
}

const char *text_put_fault(char place[TEXT_ROOM], const char *what, const char *word,
                           const char *why)
{
    char before[40], behind[200];
    snprintf(before, sizeof before, "%s: ", what);
    snprintf(behind, sizeof behind, ": %s", why);
    return text_put_quoted(place, before, word, behind);
}
