/* Runs the book of examples: each script by every way from a terminal to a card and in a session,
 * and the characters to a card alone. What they print is stored beside them. checks/serial plays
 * the book's dialogues of a terminal at T=1. */
#include "galliumtoad.h"
#include "check.h"

#include <stdlib.h>

enum { BY_CHARACTERS, BY_BUFFERS, BY_TPDUS, BY_COMMANDS, BY_BLOCKS, IN_SESSION, WAYS };
enum { TEXT = 1 << 18, ROOM = 40000, PLANS = 16 };

static int way;
static gt_terminal terminal;
static gt_card card;
static gt_session session;
static gt_t1 end;
static uint8_t value[ROOM], data[ROOM];

/* ---- Scripts, and what they print ------------------------------------------------------------ */

static char script[TEXT], wanted[TEXT], printed[TEXT];
static size_t printed_n;

/* Reads a file of the book. Leaves out the lines that begin with one of `signs`. */
static void read_text(const char *name, const char *ending, const char *signs, char text[TEXT]) {
    char path[600];
    size_t n = 0;
    FILE *file;
    snprintf(path, sizeof path, "%s/%s.%s", BOOK, name, ending);
    file = fopen(path, "r");
    while (file && n < TEXT - 1 && fgets(text + n, (int)(TEXT - n), file)) {
        if (!strchr(signs, text[n])) n += strlen(text + n);
    }
    text[n] = '\0';
    if (file) fclose(file);
    check_number(path, 0, "is there", file != NULL, 1);
}

/* The words of the next line, except those behind the third. Returns whether there is one. */
static bool next_line(char **at, char *words[3]) {
    while (**at) {
        char *line = *at;
        size_t i;
        *at += strcspn(line, "\n");
        if (**at) *(*at)++ = '\0';
        for (i = 0; i < 3; i++) {
            words[i] = line;
            line += strcspn(line, " ");
            if (*line) *line++ = '\0';
        }
        if (*words[0]) return true;
    }
    return false;
}

static bool is(const char *word, const char *other) { return strcmp(word, other) == 0; }

static uint32_t number(const char *digits) { return (uint32_t)strtoul(digits, NULL, 16); }

/* Puts the bytes of a word into `value`: digits, a byte and how many times, or - for none. */
static size_t bytes_of(const char *word) {
    const char *star = strchr(word, '*');
    const size_t most = star ? (size_t)strtoul(star + 1, NULL, 10) : strlen(word) / 2;
    char two[3] = "";
    size_t n;
    for (n = 0; n < most; n++) {
        memcpy(two, word + (star ? 0 : 2 * n), 2);
        value[n] = (uint8_t)number(two);
    }
    return n;
}

static void say(const char *text) {
    const size_t n = strlen(text);
    memcpy(printed + printed_n, text, n + 1);
    printed_n += n;
}

static void say_bytes(const char *before, const uint8_t *bytes, size_t n, const char *behind) {
    size_t i;
    say(before);
    for (i = 0; i < n; i++) printed_n += (size_t)snprintf(printed + printed_n, 3, "%02X", bytes[i]);
    say(behind);
}

static void is_printed(const char *name) {
    check_number(name, way, "differs", strcmp(printed, wanted), 0);
}

static void say_answer(uint16_t status, size_t n) {
    char line[16];
    snprintf(line, sizeof line, "= %04X%s", status, n > 0 ? " " : "");
    say_bytes(line, data, n, "\n");
}

static void say_table(void) {
    const bool joined = way == IN_SESSION;
    uint8_t aid[GT_AID_LIMIT];
    char line[16];
    size_t app, entry, n = 0;
    uint32_t tag;
    int32_t locked;
    for (app = 0; (joined ? gt_session_app_at(&session, app, aid, &n)
                          : gt_card_app_at(&card, app, aid, &n)) == GT_OK; app++) {
        say_bytes("app ", aid, n, "\n");
        for (entry = 0;
             (joined ? gt_session_entry_at(&session, app, entry, &tag, &locked, data, ROOM, &n)
                     : gt_card_entry_at(&card, app, entry, &tag, &locked, data, ROOM, &n)) == GT_OK;
             entry++) {
            snprintf(line, sizeof line, "  %X %s", (unsigned)tag, n > 0 ? "" : "-");
            say_bytes(line, data, n, locked ? " locked\n" : "\n");
        }
    }
}

/* Adds this line to the card under construction. Returns false if it is another line. */
static bool is_built(char *words[3]) {
    if (is(words[0], "app")) {
        CHECK(gt_card_app(&card, value, bytes_of(words[1])), GT_OK);
        return true;
    }
    if (!is(words[0], "object") && !is(words[0], "locked")) return false;
    const size_t n = bytes_of(words[2]);
    CHECK(gt_card_object(&card, number(words[1]), value, n, is(words[0], "locked")), GT_OK);
    return true;
}

/* ---- Ways from a terminal to a card: each carries out the operation that has begun ----------- */

static void by_characters(void) {
    uint8_t byte = 0;
    int32_t code;
    while (failed == 0 && (code = gt_terminal_next(&terminal, &byte)) != GT_DONE) {
        if (code == GT_SENDS) {
            CHECK(gt_card_take(&card, byte), GT_OK);
            continue;
        }
        CHECK(code, GT_OK);
        CHECK(gt_card_turn(&card, &byte), GT_SENDS);
        CHECK(gt_terminal_take(&terminal, byte), GT_OK);
    }
}

/* Each buffer has another size, so that pieces end anywhere. */
static void by_buffers(void) {
    uint8_t bytes[300];
    size_t room, n = 0, taken = 0;
    for (room = 1; failed == 0; room = room % sizeof bytes + 1) {
        int32_t code = gt_terminal_send_bytes(&terminal, bytes, room, &n);
        CHECK(gt_card_receive_bytes(&card, bytes, n, &taken), GT_OK);
        CHECK(taken, n);
        if (code == GT_DONE) return;
        if (code == GT_SENDS) continue;
        CHECK(code, GT_OK);
        code = gt_card_send_bytes(&card, bytes, room, &n);
        CHECK(code, n < room ? GT_OK : GT_SENDS);
        CHECK(gt_terminal_receive_bytes(&terminal, bytes, n, &taken), GT_OK);
        CHECK(taken, n);
    }
}

/* One buffer has the TPDU or command, and its answer. */
static void as_a_whole(void) {
    uint8_t both[GT_APDU_LIMIT];
    size_t n, most;
    if (way == BY_TPDUS) {
        while (failed == 0 && gt_terminal_tpdu(&terminal, both, &n, &most) == GT_OK) {
            CHECK(gt_card_tpdu(&card, both, n, both, most + 2, &n), GT_OK);
            CHECK(gt_terminal_answered(&terminal, both, n), GT_OK);
        }
        return;
    }
    while (failed == 0 && gt_terminal_apdu(&terminal, both, &n, &most) == GT_OK) {
        CHECK(gt_card_apdu(&card, both, n, both, most + 2, &n), GT_OK);
        CHECK(gt_terminal_responded(&terminal, both, n), GT_OK);
    }
}

/* At T=1. Of the blocks to the card the second of each five is lost, and the fifth is damaged. */
static void by_blocks(void) {
    uint8_t bytes[GT_APDU_LIMIT], waits;
    size_t n, most, taken = 0;
    unsigned blocks = 0;
    while (failed == 0 && gt_terminal_apdu(&terminal, bytes, &n, &most) == GT_OK) {
        CHECK(gt_t1_begin(&end, bytes, n), GT_OK);
        while (failed == 0 && gt_t1_send_bytes(&end, bytes, sizeof bytes, &n, &waits) == GT_OK) {
            blocks++;
            CHECK(blocks % 5 == 2 ? gt_card_t1_missed(&card)
                  : blocks % 5 == 0 ? gt_card_t1_damaged(&card)
                  : gt_card_t1_receive_bytes(&card, bytes, n, &taken), GT_SENDS);
            CHECK(gt_card_t1_send_bytes(&card, bytes, sizeof bytes, &n), GT_OK);
            CHECK(gt_t1_receive_bytes(&end, bytes, n, &taken), GT_SENDS);
            CHECK(taken, n);
        }
        CHECK(gt_t1_response(&end, data, ROOM, &n), GT_OK);
        CHECK(gt_terminal_responded(&terminal, data, n), GT_OK);
    }
}

static void (*const CARRY[])(void) = {
    by_characters, by_buffers, as_a_whole, as_a_whole, by_blocks
};

/* Begins the operation of a line at the terminal. */
static int32_t begin(char *words[3]) {
    const size_t n = bytes_of(words[is(words[0], "put") ? 2 : 1]);
    if (is(words[0], "select")) return gt_terminal_select(&terminal, value, n);
    if (is(words[0], "get")) return gt_terminal_get(&terminal, number(words[1]));
    if (is(words[0], "put")) return gt_terminal_put(&terminal, number(words[1]), value, n);
    return gt_terminal_send(&terminal, value, n);
}

/* ---- Each script ----------------------------------------------------------------------------- */

/* Carries out the operation of a line in the session. */
static int32_t operate(char *words[3], uint16_t *status, size_t *len) {
    const size_t n = bytes_of(words[is(words[0], "put") ? 2 : 1]);
    *len = 0;
    if (is(words[0], "select"))
        return gt_session_select(&session, value, n, status, data, ROOM, len);
    if (is(words[0], "get"))
        return gt_session_get(&session, number(words[1]), status, data, ROOM, len);
    if (is(words[0], "put"))
        return gt_session_put(&session, number(words[1]), value, n, status);
    return gt_session_send(&session, value, n, status, data, ROOM, len);
}

/* Prints a line for each turn of an end in the last operation. */
static void say_turns(void) {
    static gt_character line[ROOM];
    uint8_t from = GT_CARD + 1;
    size_t i, n = 0;
    CHECK(gt_session_heard(&session, line, ROOM, &n), GT_OK);
    for (i = 0; i < n; i++) {
        if (line[i].from != from) {
            if (i > 0) say("\n");
            from = line[i].from;
            say(from == GT_CARD ? "< " : "> ");
        }
        say_bytes("", &line[i].byte, 1, "");
    }
    say("\n");
}

static void start(void) {
    CHECK(gt_card_finish(&card), GT_OK);
    if (way == IN_SESSION) {
        CHECK(gt_session_start(&session, &card), GT_OK);
        CHECK(gt_session_listen(&session), GT_OK);
        return;
    }
    CHECK(gt_terminal_new(&terminal), GT_OK);
    if (way != BY_BLOCKS) return;
    CHECK(gt_card_t1_begin(&card), GT_OK);
    CHECK(gt_t1_new(&end, GT_LRC, 32, GT_T1_TRIES, GT_T1_EXTENSIONS, GT_ANSWER_LIMIT), GT_OK);
}

static void reset(void) {
    CHECK(way == IN_SESSION ? gt_session_reset(&session) : gt_card_reset(&card), GT_OK);
    say("reset\n");
    if (way != BY_BLOCKS) return;
    CHECK(gt_card_t1_begin(&card), GT_OK);
    CHECK(gt_t1_reset(&end), GT_OK);
}

/* Whether a chain is pending at the card: the terminal does not know. */
static bool is_busy;

/* Carries out the operation of a line. The session alone has the plans of the lines before it. */
static void run(char *words[3], char *plans[][2], size_t count) {
    const bool is_send = is(words[0], "send"), begins = is_send && words[1][0] == '1';
    uint16_t status = 0;
    size_t n = 0, i;
    if (way == IN_SESSION) {
        CHECK(gt_session_idle(&session), !is_busy);
        for (i = 0; i < count && (is_send || !is_busy); i++)
            CHECK(gt_session_plan(&session, plans[i][0], (uint16_t)atoi(plans[i][1])), GT_OK);
        CHECK(operate(words, &status, &n), is_busy && !is_send ? GT_BUSY : GT_OK);
        if (is_send || !is_busy) say_turns();
    } else if (is_send || !is_busy) {
        CHECK(begin(words), GT_OK);
        CARRY[way]();
        CHECK(gt_terminal_answer(&terminal, &status, data, ROOM, &n), GT_OK);
    }
    if (is_busy && !is_send) {
        say("! card busy\n");
        return;
    }
    say_answer(status, n);
    is_busy = begins && status == 0x9000;
}

static void play(const char *name) {
    char *at = script, *words[3], *plans[PLANS][2];
    size_t count = 0;
    bool has_started = false;
    read_text(name, "play", "#", script);
    read_text(name, "out", way == IN_SESSION ? "" : "<>", wanted);
    printed_n = 0;
    is_busy = false;
    CHECK(gt_card_new(&card), GT_OK);
    while (next_line(&at, words)) {
        if (is_built(words)) continue;
        if (!has_started) start();
        has_started = true;
        if (is(words[0], "plan") && count < PLANS) {
            words[1] += is(words[1], "-");
            memcpy(plans[count++], words + 1, sizeof *plans);
        } else if (is(words[0], "reset")) {
            reset();
            is_busy = false;
        } else if (is(words[0], "table")) {
            say_table();
        } else {
            run(words, plans, count);
            count = 0;
        }
    }
    is_printed(name);
    gt_terminal_free(&terminal);
    gt_card_free(&card);
    gt_session_free(&session);
    gt_t1_free(&end);
}

/* ---- A card alone ---------------------------------------------------------------------------- */

static void of_card(char *words[3]) {
    size_t n = 0;
    int32_t code;
    if (is(words[0], "reset")) {
        reset();
    } else if (is(words[0], "table")) {
        say_table();
    } else if (is(words[0], ">")) {
        code = gt_card_receive_bytes(&card, value, bytes_of(words[1]), &n);
        if (code < 0) say("! ");
        if (code < 0) say(gt_text(code));
        if (code < 0) say("\n");
    } else {
        const size_t room = *words[1] ? (size_t)atoi(words[1]) : sizeof data;
        code = gt_card_send_bytes(&card, data, room, &n);
        CHECK(code >= 0, 1);
        say_bytes(n > 0 ? "< " : "<", data, n, "\n");
    }
}

/* The plans of a script are given before its first character. */
static void play_card(const char *name) {
    char *at = script, *words[3];
    read_text(name, "card", "#", script);
    read_text(name, "out", "", wanted);
    if (strstr(script, "atr ")) return; /* the answer to reset is not the card's part */
    printed_n = 0;
    CHECK(gt_card_new(&card), GT_OK);
    while (next_line(&at, words)) if (!is(words[0], "plan") && !is_built(words)) break;
    CHECK(gt_card_finish(&card), GT_OK);
    read_text(name, "card", "#", script);
    for (at = script; next_line(&at, words);)
        if (is(words[0], "plan"))
            CHECK(gt_card_plan(&card, words[1] + is(words[1], "-"), (uint16_t)atoi(words[2])),
                  GT_OK);
    read_text(name, "card", "#", script);
    for (at = script; next_line(&at, words);)
        if (!strchr("pao", *words[0]) && !is(words[0], "locked")) of_card(words);
    is_printed(name);
    gt_card_free(&card);
}

int main(void) {
    char row[400], name[100], ending[5];
    int plays = 0, cards = 0;
    FILE *list = fopen(BOOK "/README.md", "r");
    while (list && failed == 0 && fgets(row, sizeof row, list)) {
        if (sscanf(row, "| `%99[a-z0-9_/].%4[a-z]`", name, ending) != 2) continue;
        for (way = 0; way < WAYS && is(ending, "play"); way++) play(name);
        if (is(ending, "play")) plays++;
        if (is(ending, "card")) play_card(name), cards++;
    }
    if (list) fclose(list);
    CHECK(plays > 40 && cards > 10, 1);
    return check_result("book");
}
