/* The characters of a line at one of its ends, over a port: conventions, the echo, guard times
 * and waiting times, and a trace. */
#ifndef SERIAL_LINE_H
#define SERIAL_LINE_H

#include "gt_port.h"

#include <galliumtoad.h>

#include <stdio.h>

/* the elementary time units of a character with its least guard time */
#define LINE_CHARACTER_ETU 12

/* What is left after a character and its echo were received. The first is of the 12 etu to the next
 * one of that end, the second of the 16 to one of the other end (EMV 4.3, Book 1, 9.2.2.1). A
 * character is received in its eleventh etu. */
#define LINE_REST_ETU 2
#define LINE_TURN_ETU 6

/* the most characters sent or received at once: more than an end of T=0 sends in a row */
#define LINE_RUN 300

/* how many times it drops characters that nobody awaits, before that is a fault */
#define LINE_DROPS 1000

/* the latest that a byte comes from the driver of a tty, in milliseconds: a USB adapter keeps bytes
 * for 16. And the latest that the next byte of an echo comes, in microseconds */
enum { LINE_LATE = 20, LINE_ECHO_LATE = 100000 };

/* the most etu between two characters of an answer to reset and of PPS (ISO/IEC 7816-3, 8.1 and
 * 9.2) */
#define LINE_ANSWER_ETU 9600

/* What happens to a character if both directions share one wire: each end hears what it sends
 * itself. A card that makes its own line may give the terminal its echo, as a reader does. */
enum line_echo { LINE_HAS_NO_ECHO, LINE_TAKES_ECHO, LINE_GIVES_ECHO };

/* The ends, by their signs in a trace. */
enum line_end { LINE_TERMINAL = '>', LINE_CARD = '<' };

/* A received character. */
struct line_character {
    uint8_t raw;
    bool has_other_parity;
};

struct line {
    struct gt_port *port;
    enum line_end own;
    enum line_echo echo;
    bool is_of_blocks;          /* T=1: what comes before this end sends is dropped */
    bool is_inverse;            /* the convention */
    bool has_parity_of_direct;  /* it is inverse, and the port's parity not yet */
    unsigned long baud;
    int64_t guard;              /* more guard time than each character has */
    int64_t slack;              /* how much longer a wait may last than the line's rules say */
    int64_t late;               /* the latest that a byte comes from the tty's driver */
    int64_t patience;           /* the longest that a command may take */
    int64_t sent_until;         /* when the last character handed out was sent */
    int64_t free_from;          /* the earliest time to send the next one */
    int64_t quiet_until;        /* the card must be silent until then .. */
    bool is_early;              /* .. and was not */
    struct line_character come[LINE_RUN]; /* those looked at, and not taken yet */
    size_t come_count;
    uint8_t sent[LINE_RUN];     /* what this end sent last */
    size_t sent_count;
    uint8_t heard[LINE_RUN];    /* the last characters of the other end .. */
    size_t heard_count;
    size_t heard_before;        /* .. and how many of them came before `sent` was sent */
    const uint8_t *answer;      /* for a terminal: the card's answer to reset */
    size_t answer_count;
    FILE *trace;                /* or NULL */
    char last_sign;             /* of the line of the trace that has not ended, or NUL */
};

/* Results of the functions below, as these very pointers: the time ran out, or the port's `until`;
 * the other end is closed. Or a character has a wrong parity, or the received bytes are not a
 * block. Or they are what this end sent, or the card's answer to reset. NULL is success, and any
 * other text a failure. */
extern const char LINE_IS_SILENT[];
extern const char LINE_IS_LATE[];
extern const char LINE_IS_GONE[];
extern const char LINE_HAS_WRONG_PARITY[];
extern const char LINE_IS_BROKEN[];
extern const char LINE_ECHOES[];
extern const char LINE_IS_RESET[];

/* How long this many etu are at the line's rate. */
int64_t line_etu(const struct line *line, unsigned long count);

/* A command begins, and must end in time. */
void line_begin_command(struct line *line);

/* Sends a character of this end, in the line's convention, and takes its echo. A byte of the card
 * that was received before the terminal sends is a fault. */
const char *line_send(struct line *line, uint8_t byte);

/* Sends characters of this end, at most LINE_RUN. They go to the port at once, if it keeps the time
 * between them by itself: each lasts as long as with the least guard time. */
const char *line_send_all(struct line *line, const uint8_t *bytes, size_t n);

/* Receives a character of the other end; the line waits this long for it after the last character.
 * */
const char *line_receive(struct line *line, uint8_t *byte, int64_t wait);

/* Looks at the characters received from the other end, waiting for the first of them as above: `n`
 * gets how many are in `bytes`. They stay on the line, in the place of the next one read, until
 * they are taken from there. */
const char *line_look(struct line *line, uint8_t bytes[LINE_RUN], size_t *n, int64_t wait);

/* Refuses a byte of a card that comes within this time, when the card may not send. */
const char *line_refuse_early(struct line *line, int64_t wait);

/* Waits before a header or a PPS request. Without an echo nothing shows that a byte is older than
 * these. So the card must be silent for `late`. `line_send_all` reads once more. */
const char *line_await_quiet(struct line *line);

/* Refuses the echo of the `n` bytes of a header or a block that was sent over a line without echo.
 * The card's answer may begin as these do. So this waits until a byte differs, or no byte has
 * followed for LINE_ECHO_LATE. */
const char *line_refuse_echo(struct line *line, size_t n, int64_t wait);

/* Over a line without echo, refuses any byte of the card within this time, if the bytes before it
 * begin as those sent last. They are no answer of the card then, but an echo. */
const char *line_refuse_more(struct line *line, int64_t wait);

/* Whether the bytes sent last over a line without echo were received first. The rest of an echo
 * that has begun is awaited. */
bool line_hears_echo(struct line *line);

/* Whether the last bytes heard are the answer to reset, or the front of it up to a status. A card
 * that has reset itself sends no more than that. */
bool line_ends_as_answer(const struct line *line);

/* The same, or whether the answer to reset was received first. The rest of one that has begun is
 * awaited. */
bool line_hears_answer(struct line *line);

/* Forgets what was sent and heard. The second also wipes it, which may be secret. The third wipes a
 * copy elsewhere, before its place is used for something else. */
void line_forget(struct line *line);
void line_wipe(struct line *line);
void line_wipe_copy(void *bytes, size_t n);

/* Drops what comes within `first`, and then all until nothing comes for `quiet`. NULL: nothing was
 * received. LINE_IS_BROKEN: something was, and was dropped. An end that does not stop sending is a
 * fault. */
const char *line_drop(struct line *line, int64_t first, int64_t quiet);

/* Takes this many of those looked at, as if each was received. */
void line_take(struct line *line, const uint8_t *bytes, size_t n);

/* Receives a character as the direct convention reads it, such as the first of an answer: not yet
 * in the trace, and with another parity in the inverse convention. */
const char *line_receive_first(struct line *line, uint8_t *byte, bool *has_other_parity,
                               int64_t wait);

/* Turns a byte of a line in the inverse convention, read by the direct one, and back. */
uint8_t line_turned(uint8_t byte);

/* Sets rate and parity, after the last character was sent. */
const char *line_set(struct line *line, unsigned long baud);

/* Notes a character in the trace, after those of its end. One of the other end is heard. */
void line_note(struct line *line, enum line_end end, uint8_t byte);

/* Notes the bytes of PPS, which is no T=0, in a line that is a note for the reader of the trace. */
void line_note_pps(struct line *line, enum line_end end, const uint8_t *bytes, size_t n);

/* Ends the line of the trace in progress, and writes one after it, unless it is NULL. */
void line_note_text(struct line *line, const char *text);

#endif
