/* Tests what the header itself has: texts for unknown values, words of statuses, `gt_is_object`,
 * the numbers that it fixes, and that the library fits it. `checks/bindings/same` compares codes,
 * texts, limits and layouts with the crate for Rust and the definitions. */
#include "galliumtoad.h"
#include "check.h"

/* The texts of unknown codes, and of codes that are not faults: the crate for Rust has other names
 * for those. */
static void codes(void) {
    static const int32_t unknown[] = { INT32_MIN, -300, 300, INT32_MAX };
    size_t i;
    for (i = 0; i < 4; i++) CHECK(strcmp(gt_text(unknown[i]), "unknown code"), 0);
    CHECK(strcmp(gt_text(GT_OK), "ok"), 0);
    CHECK(strcmp(gt_text(GT_SENDS), "sends"), 0);
    CHECK(strcmp(gt_text(GT_DONE), "done"), 0);
}

/* What statuses mean after commands. `checks/bindings/statuses` compares all of them. */
static void words(void) {
    static const struct { uint8_t cla, ins; uint16_t status; const char *words; } rows[] = {
        { 0x00, 0x00, 0x9000, "normal processing" },
        { 0x00, 0x00, 0x60FF, "no known meaning" },
        { 0x00, 0x00, 0x6100, "at least 256 bytes of the response wait" },
        { 0x00, 0x00, 0x61FF, "255 bytes of the response wait" },
        { 0x00, 0x00, 0x6282, "a warning: the file or record ended before Le bytes" },
        { 0x00, 0x00, 0x6983, "the method of authentication is blocked" },
        { 0x00, 0x00, 0x63C0, "a warning: a counter is at 0" },
        { 0x00, 0x00, 0x63CF, "a warning: a counter is at 15" },
        { 0x00, 0x20, 0x63C1, "a warning: 1 try is left" },
        { 0x7F, 0x20, 0x63C2, "a warning: 2 tries are left" },
        { 0x80, 0x20, 0x63C2, "a warning: a counter is at 2" },
        { 0x00, 0x82, 0x63CF, "a warning: 15 tries are left" },
        { 0x00, 0x20, 0x6983, "the method of authentication is blocked" },
        { 0xA0, 0x20, 0x63C2, "a warning: a counter is at 2" },
        { 0xA0, 0xA4, 0x9F16, "22 bytes of the response wait" },
        { 0xA1, 0xA4, 0x9F16, "no known meaning" },
        { 0xA0, 0xA4, 0x9000, "normal processing" },
        { 0x00, 0x00, 0x6FFF, "an error of checking" },
        { 0x00, 0x00, 0xFFFF, "no known meaning" },
    };
    static const uint8_t counting[] = { 0x20, 0x21, 0x24, 0x25, 0x26, 0x28, 0x2C, 0x2D, 0x82 };
    char text[GT_WORDS_ROOM];
    unsigned i, ins;
    for (i = 0; i < sizeof rows / sizeof *rows; i++) {
        CHECK(gt_status_words(rows[i].cla, rows[i].ins, rows[i].status, text, sizeof text),
              strlen(rows[i].words));
        check_number("row of words", (int)i, "text", strcmp(text, rows[i].words), 0);
    }
    for (ins = 0; ins <= 0xFF; ins++) {
        (void)gt_status_words(0x00, (uint8_t)ins, 0x63C2, text, sizeof text);
        check_number("INS that counts", (int)ins, "tries", strstr(text, "tries") != NULL,
                     memchr(counting, (int)ins, sizeof counting) != NULL);
    }
    CHECK(strcmp(gt_status_text(0x6982), "security status not satisfied"), 0);
    CHECK(strcmp(gt_status_text(0x61FF), "XX bytes of the response wait"), 0);
    CHECK(strcmp(gt_status_text(0x63C2), "a warning: a counter is at X"), 0);
}

/* A text that is cut to its room, and one whose length alone is asked for. */
static void cut_words(void) {
    char text[28];
    memset(text, '#', sizeof text);
    CHECK(gt_status_words(0, 0, 0x9000, text, 5), 17);
    CHECK(memcmp(text, "norm\0###", 8), 0);
    CHECK(gt_status_words(0, 0, 0x9000, text, 17), 17);
    CHECK(memcmp(text, "normal processin\0##", 19), 0);
    CHECK(gt_status_words(0, 0, 0x9000, text, 18), 17);
    CHECK(memcmp(text, "normal processing\0#", 19), 0);
    CHECK(gt_status_words(0, 0x20, 0x63CF, text, 14), 28);
    CHECK(memcmp(text, "a warning: 15\0", 14), 0);
    CHECK(gt_status_words(0, 0, 0x6700, text, 1), 12);
    CHECK(memcmp(text, "\0 warning", 9), 0);
    CHECK(gt_status_words(0, 0, 0x6700, text, 0), 12);
    CHECK(memcmp(text, "\0 warning", 9), 0);
    CHECK(gt_status_words(0, 0, 0x6700, NULL, 9), 12);
}

/* The numbers in fields of an answer to reset, those of T=1, and the version. */
static void numbers(void) {
    CHECK(GT_TERMINAL, 0);
    CHECK(GT_CARD, 1);
    CHECK(GT_DIRECT, 0);
    CHECK(GT_INVERSE, 1);
    CHECK(GT_STOP_NONE, 0);
    CHECK(GT_STOP_LOW, 1);
    CHECK(GT_STOP_HIGH, 2);
    CHECK(GT_STOP_EITHER, 3);
    CHECK(GT_CLASS_A, 1);
    CHECK(GT_CLASS_B, 2);
    CHECK(GT_CLASS_C, 4);
    CHECK(GT_HISTORY_NONE, 0);
    CHECK(GT_HISTORY_STATUS, 1);
    CHECK(GT_HISTORY_DIR, 2);
    CHECK(GT_HISTORY_OBJECTS, 3);
    CHECK(GT_HISTORY_RESERVED, 4);
    CHECK(GT_HISTORY_OWN, 5);
    CHECK(GT_ABSENT, 256);
    CHECK(GT_LRC, 1);
    CHECK(GT_CRC, 2);
    CHECK(GT_NOT_CARRIED_OUT, 0);
    CHECK(GT_UNKNOWN, 1);
    CHECK(GT_IN_PART, 2);
    CHECK(GT_VERSION, 0x000300);
    CHECK(gt_version(), GT_VERSION);
    CHECK(gt_version_fits(), 1);
}

#define BYTES(s) (const uint8_t *)(s), sizeof(s) - 1
#define NAME "\x5F\x20\x03JOE"

/* `gt_is_object`: the bytes are one object with this tag, without padding around or between its
 * parts (EMV Book 3, Annex B). */
static void one_object(void) {
    size_t n;
    CHECK(gt_is_object(BYTES(NAME), 0x5F20), 1);
    CHECK(gt_is_object(BYTES("\x50\x00"), 0x50), 1);
    CHECK(gt_is_object(BYTES("\x5F\x20\x82\x00\x01J"), 0x5F20), 1);
    CHECK(gt_is_object(BYTES("\x6F\x03\x84\x01\xA0"), 0x6F), 1);
    for (n = 0; n + 1 < sizeof NAME; n++)
        CHECK(gt_is_object((const uint8_t *)NAME, n, 0x5F20), 0);
    CHECK(gt_is_object(BYTES(NAME), 0x5F24), 0);
    CHECK(gt_is_object(BYTES(NAME), 0x5F), 0);
    CHECK(gt_is_object(BYTES("JOE"), 0x5F20), 0);
    CHECK(gt_is_object(BYTES("JOE"), 0x50), 0);
    CHECK(gt_is_object(BYTES("A"), 0x5F20), 0); /* a value alone that is also a tag */
    CHECK(gt_is_object(BYTES("\x00" NAME), 0x5F20), 0);
    CHECK(gt_is_object(BYTES(NAME "\x00"), 0x5F20), 0);
    CHECK(gt_is_object(BYTES(NAME "\x50\x00"), 0x5F20), 0);
    CHECK(gt_is_object(BYTES("\x50\x00" NAME), 0x5F20), 0);
    CHECK(gt_is_object(BYTES("\x6F\x03\x84\x01\xA0"), 0x84), 0); /* an inner tag */
    CHECK(gt_is_object(BYTES("\x70\x02\x50\x01"), 0x70), 0); /* a template with an invalid value */
    CHECK(gt_is_object(NULL, 0, 0x5F20), 0);
    CHECK(gt_is_object(NULL, 6, 0x5F20), 0);
}

int main(void) {
    codes();
    words();
    cut_words();
    numbers();
    one_object();
    return check_result("texts");
}
