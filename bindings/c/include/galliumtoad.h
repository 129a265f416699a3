/* galliumtoad.h: data objects of smart cards, answers to reset, and both ends of a dialogue by T=0
 * or by whole commands, for C99 and C++.
 *
 * The functions call a proved library. What a comment below says of results, and of the state after
 * them, is the library's contract, and is proved. This header is tested, not proved: its functions
 * check for NULL, call the library, and return texts. The caller's part:
 *
 * - A pointer with a count is that many elements, all readable and, without const, writable. It may
 *   be NULL if the count is 0. If any other pointer is NULL, the call returns GT_NULL and does
 *   nothing, except as its comment says. Pointers are aligned as their types require.
 * - The memory that the arguments of one call point to does not overlap, unless all of it is const
 *   or the comment of the function allows it.
 * - A handle (gt_exchange, gt_terminal, gt_t1, gt_card, gt_session) is all zero before its first
 *   use: GT_INIT, or static storage. Only the library reads or writes its fields. You may move a
 *   handle by assignment if you never use the old copy again. Never use two copies.
 * - A handle may pass from one thread to another, and only one uses it at a time: each call writes
 *   to it, also one that only asks, so none takes it as const. A lock, the start or the end of a
 *   thread, or a sequentially consistent atomic orders the use by one thread before the use by the
 *   next. Different threads may use different handles at once.
 * - Call no function from a signal handler, or in the child of a fork of a process with threads.
 *
 * A function copies its input, and keeps no reference to any buffer after the call. No function
 * blocks, prints or aborts. None calls the caller's code, except the functions for memory.
 *
 * Every function returns a code of the list below, except those of texts, of the version,
 * gt_is_object and the .._free ones. 0 or above is success, below 0 is a fault: compare with < 0,
 * not with != 0. gt_pps_agreed, gt_session_idle and gt_card_settled return 1 or 0 if they succeed.
 * The numbers are fixed. A function's comment names all faults that it may return, except three:
 *
 * - GT_NULL: see above.
 * - GT_EMPTY: the handle holds nothing. Each function with a handle returns it, unless its comment
 *   says otherwise.
 * - GT_STATE: the operation is at the other level (see `gt_exchange_apdu`).
 *
 * If more than one holds, the result is the first of GT_NULL, GT_EMPTY, GT_STATE, and then of the
 * comment's, in its order. In gt_session_start and gt_session_end, which have two handles, GT_STATE
 * comes before GT_EMPTY. After a fault nothing has changed, neither the handle nor what the other
 * pointers point to, except as the comment says.
 *
 * A code is about the call, a status about the card: GT_OK with status 6982 is a call that
 * succeeded, and a value that is not stored. Check both. The statuses are listed above "A session".
 *
 * Targets: Linux on x86-64-v2 and on little-endian 64-bit ARM (AArch64). Others, of 32 bits too,
 * get the same module, tested: its source is proved for 64-bit targets, since usize has 64 bits in
 * the toolchain's logic. bindings/machines lists them, and what could differ. Memory comes from
 * malloc and free, and is wiped before it is freed. The caller's own three functions may replace
 * these, and must not throw or longjmp: galliumtoad_heap.h describes them and their duties. Linking
 * also requires memcpy, memmove and memset, and on 32-bit boards the compiler's library, libgcc. */
#ifndef GALLIUMTOAD_H
#define GALLIUMTOAD_H

/* The version of this header, and of the library with it. Before 1.0 another minor number may have
 * other functions. */
#define GT_VERSION_MAJOR 0
#define GT_VERSION_MINOR 3
#define GT_VERSION_PATCH 0

/* The same as one number: 0x000300 is 0.3.0. */
#define GT_VERSION (GT_VERSION_MAJOR * 0x10000u + GT_VERSION_MINOR * 0x100u + GT_VERSION_PATCH)

#include <stddef.h>
#include <stdint.h>

#ifdef __cplusplus
#define GT_INIT {}
extern "C" {
#else
#include <stdbool.h>
#define GT_INIT { 0 }
#endif

/* In C the functions are `static inline`. In C++ they are `inline`, one of each in a program, and
 * hidden: a shared object exports none. If GT_EXTERN is defined before the header is included, they
 * are `extern`: one source file of the shared library exports them so, for other languages. */
#ifdef __cplusplus
#define GT_INLINE inline __attribute__((visibility("hidden")))
#else
#define GT_INLINE static inline
#endif
#ifdef GT_EXTERN
#define GT_FUNCTION extern
#else
#define GT_FUNCTION GT_INLINE
#endif

/* For a function whose result the caller must check. */
#ifdef __GNUC__
#define GT_MUST_CHECK __attribute__((warn_unused_result)) GT_FUNCTION
#else
#define GT_MUST_CHECK GT_FUNCTION
#endif

/* Structs have the layout of 64-bit targets on each target: such a field begins at a multiple of 8,
 * so that a size or pointer of 32 bits has room for 64. The library writes all 64. */
#if SIZE_MAX == UINT64_MAX
#define GT_AT_8_
#elif SIZE_MAX == UINT32_MAX && defined(__GNUC__) && __BYTE_ORDER__ == __ORDER_LITTLE_ENDIAN__
#define GT_AT_8_ __attribute__((aligned(8)))
#else
#error "galliumtoad is for little-endian targets of 64 or 32 bits"
#endif

/* ---- Codes ----------------------------------------------------------------------------------- */

enum {
    GT_OK = 0,              /* success; of a turn (.._next, .._turn, and .._send_bytes except at
                             * T=1): the end listens */
    GT_SENDS = 1,           /* of .._next and .._turn: a character to send; of .._send_bytes: the
                             * buffer is full, or has a NULL alone; at T=1: the received block is
                             * whole, or dropped */
    GT_DONE = 2,            /* of a turn: the exchange or operation has ended, and has an answer;
                             * at T=1: there is no block to send */
    GT_COMMAND = 3,         /* of a card of your own: a command waits for its response */
    GT_HEADER = 4,          /* of a card of your own: a header waits for the way of its data */

    GT_ALL_SENT = 10,       /* all data to the card have left the terminal, or it has none to
                             * send */
    GT_NOT_ALL_SENT = 11,   /* not all data to the card have left the terminal */
    GT_SENT_UNKNOWN = 12,   /* whether they have is unknown: see `gt_exchange_data_sent` */

    GT_NULL = -1,           /* a pointer is NULL that must not be */
    GT_EMPTY = -2,          /* the handle holds nothing */
    GT_STATE = -3,          /* the handle's state, or its kind of card, does not allow the call */
    GT_MEMORY = -4,         /* memory ran out */
    GT_ARGUMENT = -5,       /* an argument is invalid */
    GT_BUFFER = -6,         /* too little room for the output, or of gt_card_tpdu and gt_card_apdu
                             * for what it may be; the buffer is unchanged, except by gt_objects,
                             * which fills it as far as it goes */
    GT_BUSY = -7,           /* a chain is pending at the card */
    GT_NOT_FOUND = -8,      /* what was asked for is not there */
    GT_FAILED = -9,         /* of a turn: the exchange or operation has failed for good; at T=1:
                             * the end gave up */
    GT_PLANS = -10,         /* GT_PLANS_LIMIT plans wait already */

    /* of a card under construction */
    GT_APP_TWICE = -20,     /* an earlier application has this identifier */
    GT_TOO_MANY_APPS = -21, /* the card has as many applications as it may */
    GT_NO_APP = -22,        /* there is no application to hold the data object */
    GT_VALUE_TOO_LONG = -23, /* the value exceeds the limit on a value */
    GT_NOT_OBJECTS = -24,   /* the tag is that of a template, and the value is not a list of
                             * objects, or has more than 15 levels */
    GT_TABLE_FULL = -25,    /* the tag is new, and the application has as many data objects as it
                             * may */

    /* of the line */
    GT_NOT_LISTENING = -30, /* the end has characters to send; at a card of your own also: a header
                             * or a command waits */
    GT_BAD_PROCEDURE = -31, /* unexpected byte: neither a procedure byte nor a first status byte */
    GT_TOO_LONG = -32,      /* the response exceeds its limit */
    GT_STALLED = -33,       /* a GET RESPONSE of the exchange's own brought nothing, and the card
                             * announces more */
    GT_AFTER_END = -34,     /* the exchange or operation has ended or failed, or none has started */

    /* of objects */
    GT_TAG_CUT = -40,       /* the list ends inside a tag */
    GT_TAG_FORM = -41,      /* no tag of one to three bytes starts here */
    GT_LENGTH_CUT = -42,    /* the list ends inside a length, or before it */
    GT_LENGTH_FORM = -43,   /* the length starts with 80, or with a byte above 82 */
    GT_VALUE_CUT = -44,     /* the value passes the end of the list */
    GT_TOO_DEEP = -45,      /* an object is below the deepest level, 16 */

    /* of a command */
    GT_TOO_SHORT = -50,     /* there are fewer than four bytes */
    GT_BAD_LENGTH = -51,    /* the bytes after the header fit none of the four cases */
    GT_INVALID_INS = -52,   /* INS is 6X or 9X, and the bytes after the header fit a case */

    /* of whole TPDUs and commands */
    GT_NOT_DUE = -60,       /* no TPDU or command is about to begin */
    GT_NO_STATUS = -61,     /* the answer does not end in a status word */
    GT_NOT_ASKED = -62,     /* data came back, and none may: the TPDU sends data or is the header
                             * alone, or the command has no Le */
    GT_TOO_MANY = -63,      /* more data came back than the TPDU or command asks for */
    GT_NO_TPDU = -64,       /* the bytes are not a whole TPDU */
    GT_WANTS_DATA = -65,    /* the card takes data, and the TPDU has none: deadlock */
    GT_SENDS_DATA = -66,    /* the card sends data, and the TPDU asks for none */

    /* of an answer to reset */
    GT_ATR_NO_TS = -70,     /* the first byte is neither 3B nor 3F */
    GT_ATR_CUT = -71,       /* there are fewer than 33 bytes, and they end before TS, T0 or an
                             * announced character */
    GT_ATR_TOO_LONG = -72,  /* there are 33 bytes or more, and the answer would have more than 33,
                             * the most, with TCK */
    GT_ATR_ORDER = -73,     /* the T that this TD names is below the one before it, or 15 in TD1 */
    GT_ATR_SURPLUS = -74,   /* bytes follow TCK, or at least two follow the end without TCK */
    GT_ATR_CHECK_MISSING = -75, /* TCK is missing, which a T other than 0 requires */
    GT_ATR_CHECK_NOT_DUE = -76, /* one byte follows the end, and TCK is not expected */
    GT_ATR_CHECK_WRONG = -77, /* TCK doesn't make the exclusive-or of all characters after TS 00 */

    /* of a PPS response */
    GT_PPS_NO_PPSS = -80,   /* the first byte is not FF */
    GT_PPS_CUT = -81,       /* there are no bytes, or they end before an expected character */
    GT_PPS_RESERVED = -82,  /* bit 8 of PPS0 is 1, which is reserved */
    GT_PPS_SURPLUS = -83,   /* characters follow PCK */
    GT_PPS_CHECK_WRONG = -84, /* PCK doesn't make the exclusive-or of all characters 00 */

    /* why a terminal's end at T=1 gave up; GT_TOO_LONG is another cause */
    GT_TRIES_SPENT = -90,   /* more than `tries` receptions were fruitless since the last progress:
                             * see `gt_t1_new` */
    GT_EXTENSIONS_SPENT = -91, /* in one command the card sent more S(WTX request), and S(IFS
                             * request) of 1 to 254, than `extensions` */
    GT_ABORTED = -92        /* the card sent S(ABORT request), and the end has answered it: see
                             * `gt_t1_fault` */
};

/* Returns what a code means, in a few words: a string that stays valid. For a number that is no
 * code it is "unknown code". Not proved: it repeats the list above. */
GT_FUNCTION const char *gt_text(int32_t code) {
    switch (code) {
    case GT_OK: return "ok";
    case GT_SENDS: return "sends";
    case GT_DONE: return "done";
    case GT_COMMAND: return "a command waits";
    case GT_HEADER: return "a header waits";
    case GT_ALL_SENT: return "all data sent";
    case GT_NOT_ALL_SENT: return "not all data sent";
    case GT_SENT_UNKNOWN: return "data sent unknown";
    case GT_NULL: return "null pointer";
    case GT_EMPTY: return "empty handle";
    case GT_STATE: return "not in this state";
    case GT_MEMORY: return "out of memory";
    case GT_ARGUMENT: return "bad argument";
    case GT_BUFFER: return "buffer too short";
    case GT_BUSY: return "a chain is pending";
    case GT_NOT_FOUND: return "not found";
    case GT_FAILED: return "failed";
    case GT_PLANS: return "too many plans";
    case GT_APP_TWICE: return "aid twice";
    case GT_TOO_MANY_APPS: return "too many apps";
    case GT_NO_APP: return "no app";
    case GT_VALUE_TOO_LONG: return "value too long";
    case GT_NOT_OBJECTS: return "not objects";
    case GT_TABLE_FULL: return "table full";
    case GT_NOT_LISTENING: return "not listening";
    case GT_BAD_PROCEDURE: return "bad procedure byte";
    case GT_TOO_LONG: return "response too long";
    case GT_STALLED: return "stalled";
    case GT_AFTER_END: return "after the end";
    case GT_TAG_CUT: return "tag cut";
    case GT_TAG_FORM: return "tag form";
    case GT_LENGTH_CUT: return "length cut";
    case GT_LENGTH_FORM: return "length form";
    case GT_VALUE_CUT: return "value cut";
    case GT_TOO_DEEP: return "too deep";
    case GT_TOO_SHORT: return "command too short";
    case GT_BAD_LENGTH: return "bad command length";
    case GT_INVALID_INS: return "invalid INS";
    case GT_NOT_DUE: return "nothing due";
    case GT_NO_STATUS: return "no status";
    case GT_NOT_ASKED: return "data not asked for";
    case GT_TOO_MANY: return "more data than asked for";
    case GT_NO_TPDU: return "no whole TPDU";
    case GT_WANTS_DATA: return "card expects data not sent";
    case GT_SENDS_DATA: return "card sends data not asked for";
    case GT_ATR_NO_TS: return "no TS";
    case GT_ATR_CUT: return "answer to reset cut";
    case GT_ATR_TOO_LONG: return "answer to reset too long";
    case GT_ATR_ORDER: return "T out of order";
    case GT_ATR_SURPLUS: return "characters after the answer to reset";
    case GT_ATR_CHECK_MISSING: return "check byte missing";
    case GT_ATR_CHECK_NOT_DUE: return "check byte not due";
    case GT_ATR_CHECK_WRONG: return "wrong check byte";
    case GT_PPS_NO_PPSS: return "no PPSS";
    case GT_PPS_CUT: return "PPS cut";
    case GT_PPS_RESERVED: return "PPS0 reserved";
    case GT_PPS_SURPLUS: return "characters after PCK";
    case GT_PPS_CHECK_WRONG: return "wrong PCK";
    case GT_TRIES_SPENT: return "too many tries without progress";
    case GT_EXTENSIONS_SPENT: return "too many requests from the card";
    case GT_ABORTED: return "aborted by the card";
    default: return "unknown code";
    }
}

/* Only for the functions below. The words of a status after a command with this CLA and INS: those
 * of the first row that fits. `number` gets how far the status is from the row's first. Rows of 'S'
 * are for class A0, a SIM card. Rows of 'T' are for commands after which 63CX counts tries.
 *
 * The rows repeat `crates/apdu_core/src/meaning.rt`, so that no archive holds them. The command
 * `checks/bindings/statuses --write` writes them. */
GT_INLINE const char *gt_meaning_(uint8_t cla, uint8_t ins, uint16_t status, unsigned *number) {
    static const struct { char of; uint16_t first, last; const char *words; } rows[] = {
    { 'S', 0x9100, 0x91FF, "normal processing: a command of the card waits, of XX bytes" },
    { 'S', 0x9200, 0x920F, "normal processing, with X retries of an update" },
    { 'S', 0x9240, 0x9240, "memory problem" },
    { 'S', 0x9300, 0x9300, "the SIM application toolkit is busy" },
    { 'S', 0x9400, 0x9400, "no elementary file is selected" },
    { 'S', 0x9402, 0x9402, "out of range: invalid address" },
    { 'S', 0x9404, 0x9404, "file or pattern not found" },
    { 'S', 0x9408, 0x9408, "the command does not fit the file" },
    { 'S', 0x9802, 0x9802, "no CHV is initialized" },
    { 'S', 0x9804, 0x9804, "access condition not fulfilled, CHV wrong, or authentication failed" },
    { 'S', 0x9808, 0x9808, "in contradiction with the CHV status" },
    { 'S', 0x9810, 0x9810, "in contradiction with the invalidation status" },
    { 'S', 0x9840, 0x9840, "CHV wrong, and no try is left, or CHV is blocked" },
    { 'S', 0x9850, 0x9850, "increase not possible: the maximum is reached" },
    { 'S', 0x9E00, 0x9EFF, "an error of data download: XX bytes of the response wait" },
    { 'S', 0x9F00, 0x9F00, "256 bytes of the response wait" },
    { 'S', 0x9F01, 0x9F01, "1 byte of the response waits" },
    { 'S', 0x9F00, 0x9FFF, "XX bytes of the response wait" },
    { 'T', 0x63C0, 0x63C0, "a warning: no try is left" },
    { 'T', 0x63C1, 0x63C1, "a warning: 1 try is left" },
    { 'T', 0x63C0, 0x63CF, "a warning: X tries are left" },
    { 'A', 0x9000, 0x9000, "normal processing" },
    { 'A', 0x6100, 0x6100, "at least 256 bytes of the response wait" },
    { 'A', 0x6101, 0x6101, "1 byte of the response waits" },
    { 'A', 0x6100, 0x61FF, "XX bytes of the response wait" },
    { 'A', 0x6200, 0x6201, "a warning: what the card holds is unchanged" },
    { 'A', 0x6200, 0x6280, "a warning: the card has a query of XX bytes" },
    { 'A', 0x6281, 0x6281, "a warning: part of the data may be corrupted" },
    { 'A', 0x6282, 0x6282, "a warning: the file or record ended before Le bytes" },
    { 'A', 0x6283, 0x6283, "a warning: the selected file is deactivated" },
    { 'A', 0x6284, 0x6284, "a warning: the control information is not formatted by the standard" },
    { 'A', 0x6285, 0x6285, "a warning: the selected file is in termination state" },
    { 'A', 0x6286, 0x6286, "a warning: a sensor on the card has no input data" },
    { 'A', 0x6287, 0x6287, "a warning: a record that is referenced is deactivated" },
    { 'A', 0x6200, 0x62FF, "a warning: what the card holds is unchanged" },
    { 'A', 0x6340, 0x6340, "a warning: the comparison was unsuccessful" },
    { 'A', 0x6381, 0x6381, "a warning: the last write filled up the file" },
    { 'A', 0x63C0, 0x63CF, "a warning: a counter is at X" },
    { 'A', 0x6300, 0x63FF, "a warning: what the card holds may have changed" },
    { 'A', 0x6401, 0x6401, "an error of execution: the card requires a response at once" },
    { 'A', 0x6400, 0x6400, "an error of execution: what the card holds is unchanged" },
    { 'A', 0x6400, 0x6480, "an error of execution: the card has a query of XX bytes" },
    { 'A', 0x6481, 0x6481, "an error of execution: shared access by a channel is denied" },
    { 'A', 0x6482, 0x6482, "an error of execution: the opening of a channel is denied" },
    { 'A', 0x6400, 0x64FF, "an error of execution: what the card holds is unchanged" },
    { 'A', 0x6581, 0x6581, "memory failure" },
    { 'A', 0x6500, 0x65FF, "an error of execution: what the card holds may have changed" },
    { 'A', 0x6600, 0x66FF, "an error of execution, for security" },
    { 'A', 0x6700, 0x6700, "wrong length" },
    { 'A', 0x6701, 0x6701, "the form of the command is not that of the standard" },
    { 'A', 0x6702, 0x6702, "wrong length: another Lc was expected" },
    { 'A', 0x6700, 0x67FF, "an error of checking, of the length" },
    { 'A', 0x6881, 0x6881, "logical channels are not supported" },
    { 'A', 0x6882, 0x6882, "secure messaging is not supported" },
    { 'A', 0x6883, 0x6883, "the last command of the chain was expected" },
    { 'A', 0x6884, 0x6884, "chaining is not supported" },
    { 'A', 0x6800, 0x68FF, "an error of checking: a function in CLA is not supported" },
    { 'A', 0x6981, 0x6981, "the command does not fit the structure of the file" },
    { 'A', 0x6982, 0x6982, "security status not satisfied" },
    { 'A', 0x6983, 0x6983, "the method of authentication is blocked" },
    { 'A', 0x6984, 0x6984, "the reference data are not usable" },
    { 'A', 0x6985, 0x6985, "conditions of use not satisfied" },
    { 'A', 0x6986, 0x6986, "the command is not allowed: there is no current elementary file" },
    { 'A', 0x6987, 0x6987, "expected data objects for secure messaging are missing" },
    { 'A', 0x6988, 0x6988, "data objects for secure messaging are incorrect" },
    { 'A', 0x6900, 0x69FF, "an error of checking: the command is not allowed" },
    { 'A', 0x6A80, 0x6A80, "wrong data field" },
    { 'A', 0x6A81, 0x6A81, "the function is not supported" },
    { 'A', 0x6A82, 0x6A82, "file or application not found" },
    { 'A', 0x6A83, 0x6A83, "record not found" },
    { 'A', 0x6A84, 0x6A84, "not enough memory space" },
    { 'A', 0x6A85, 0x6A85, "Lc is inconsistent with the structure of the objects" },
    { 'A', 0x6A86, 0x6A86, "wrong P1-P2" },
    { 'A', 0x6A87, 0x6A87, "Lc is inconsistent with P1-P2" },
    { 'A', 0x6A88, 0x6A88, "referenced data not found" },
    { 'A', 0x6A89, 0x6A89, "the file exists already" },
    { 'A', 0x6A8A, 0x6A8A, "the name of the application exists already" },
    { 'A', 0x6A00, 0x6AFF, "an error of checking: wrong parameters" },
    { 'A', 0x6B00, 0x6B00, "wrong P1-P2" },
    { 'A', 0x6C00, 0x6C00, "wrong Le: ask for 256 bytes" },
    { 'A', 0x6C01, 0x6C01, "wrong Le: ask for 1 byte" },
    { 'A', 0x6C00, 0x6CFF, "wrong Le: ask for XX bytes" },
    { 'A', 0x6D00, 0x6D00, "INS not supported" },
    { 'A', 0x6E00, 0x6E00, "CLA not supported" },
    { 'A', 0x6F00, 0x6F00, "no precise diagnosis" },
    { 'A', 0x6B00, 0x6FFF, "an error of checking" },
    { 'A', 0x0000, 0xFFFF, "no known meaning" },
    };
    const bool tries = cla < 0x80 && (ins == 0x20 || ins == 0x21 || (ins >= 0x24 && ins <= 0x26) ||
                                      ins == 0x28 || ins == 0x2C || ins == 0x2D || ins == 0x82);
    size_t i = 0;
    while (status < rows[i].first || status > rows[i].last || (rows[i].of == 'S' && cla != 0xA0) ||
           (rows[i].of == 'T' && !tries))
        i++;
    *number = 0u + status - rows[i].first;
    return rows[i].words;
}

/* Returns what a status word means, in a few words (ISO/IEC 7816-4, 5.1.3): a string that stays
 * valid. An X or XX in it is a number, which `gt_status_words` writes out. For a number that is no
 * known status it is "no known meaning". The list above "A session" says more of the statuses of a
 * card here. Not proved. */
GT_FUNCTION const char *gt_status_text(uint16_t status) {
    unsigned number;
    return gt_meaning_(0, 0, status, &number);
}

/* Writes the same after a command with this CLA and INS, with its number: 63C2 after VERIFY is "a
 * warning: 2 tries are left". If the command is not known, CLA and INS are 0.
 *
 * `words` gets the text and a 0, cut to `room`; GT_WORDS_ROOM is always enough. Nothing is written
 * if it is NULL. Returns the length of the whole text, without the 0. Not proved. */
GT_FUNCTION size_t gt_status_words(uint8_t cla, uint8_t ins, uint16_t status, char *words,
                                   size_t room) {
    char part[8];
    unsigned number;
    size_t at, len = 0;
    const char *text = gt_meaning_(cla, ins, status, &number);
    if (!words) room = 0;
    for (; *text; text++) {
        at = sizeof part;
        if (*text != 'X')
            part[--at] = *text;
        else if (text[1] != 'X') /* the number's last digit */
            do part[--at] = "0123456789"[number % 10];
            while ((number /= 10) > 0);
        for (; at < sizeof part; at++, len++)
            if (len + 1 < room) words[len] = part[at];
    }
    if (room) words[len < room ? len : room - 1] = 0;
    return len;
}

/* ---- Types ----------------------------------------------------------------------------------- */

enum {
    GT_VALUE_LIMIT = 8192,      /* the most bytes of a value on a card */
    GT_OBJECT_LIMIT = 8197,     /* of such a value with its tag and length: the data of a get */
    GT_RESPONSE_LIMIT = 16384,  /* of an answer's data, if no lower limit is given */
    GT_AID_LEAST = 5,           /* the fewest bytes of an application's identifier */
    GT_AID_LIMIT = 16,          /* and the most */
    GT_APPS_LIMIT = 8,          /* the most applications of a card */
    GT_ENTRIES_LIMIT = 64,      /* the most data objects of an application */
    GT_LEVELS_LIMIT = 16,       /* the deepest level of an object */
    GT_TPDU_LIMIT = 260,        /* the most bytes of a whole TPDU: header, P3 and 255 of data */
    GT_APDU_LIMIT = 261,        /* of a short command: header, Lc, 255 of data and Le */
    GT_ANSWER_LIMIT = 258,      /* of the answer to either: 256 of data, and the status */
    GT_DATA_LIMIT = 255,        /* of the data of a short command */
    GT_OWN_LIMIT = 4096,        /* of a response of your own card, without the status */
    GT_ATR_LIMIT = 33,          /* of an answer to reset */
    GT_PROTOCOLS_LIMIT = 15,    /* the most protocols that it offers: T=0 to T=14 */
    GT_PPS_LIMIT = 6,           /* the most bytes of a PPS request or response */
    GT_PLANS_LIMIT = 1048576,   /* the most plans that wait at a card, or in a session */
    GT_BLOCK_LIMIT = 258,       /* the most bytes of a block of T=1: NAD, PCB, LEN, 254 and LRC */
    GT_T1_TRIES = 4,            /* the usual `tries` of `gt_t1_new`; EMV has 2 */
    GT_T1_EXTENSIONS = 1000,    /* its usual `extensions`: a key may take a card minutes */
    GT_WORDS_ROOM = 80          /* room for any text of `gt_status_words` */
};

/* One object of a list. A tag is the number that its one to three bytes make: 0x50, 0x5F20,
 * 0x9F8101; "%02X" prints it so. Sizes and places count bytes, places from 0 for the first byte of
 * the list. */
typedef struct gt_object {
    uint32_t tag;
    uint8_t level;          /* from 1 to GT_LEVELS_LIMIT */
    uint8_t constructed;    /* 1 for a template, whose value is a list of objects; else 0 */
    size_t place GT_AT_8_, size GT_AT_8_;   /* the first byte of its tag; tag, length and value
                                             * together */
    size_t value GT_AT_8_, length GT_AT_8_; /* the first byte of its value; the number of its
                                             * bytes */
} gt_object;

enum { GT_TERMINAL = 0, GT_CARD = 1 };

/* A character that passed over the line. */
typedef struct gt_character {
    uint8_t from;           /* GT_TERMINAL or GT_CARD */
    uint8_t byte;
} gt_character;

/* A command that reached a card of your own, as T=0 shows it: with Le and without data, or without
 * Le and with data, of 0 bytes or more. A header that waits has neither. */
typedef struct gt_command {
    uint8_t cla, ins, p1, p2;
    uint16_t le;            /* Le, 1 to 256; 0: the command has none */
    uint8_t size;           /* the number of bytes of data, 0 to GT_DATA_LIMIT */
    uint8_t data[GT_DATA_LIMIT]; /* the data, and then zeros */
} gt_command;

enum { GT_DIRECT = 0, GT_INVERSE = 1 };
enum { GT_STOP_NONE = 0, GT_STOP_LOW = 1, GT_STOP_HIGH = 2, GT_STOP_EITHER = 3 };
enum { GT_CLASS_A = 1, GT_CLASS_B = 2, GT_CLASS_C = 4 };
enum { GT_LRC = 1, GT_CRC = 2 };

/* What is known of a command if a terminal's end at T=1 gave up. The card has not carried it out,
 * since its last block was never sent, or has to come again in shorter ones (0). It may have (1).
 * It has, and a part of the response arrived (2). */
enum { GT_NOT_CARRIED_OUT = 0, GT_UNKNOWN = 1, GT_IN_PART = 2 };

/* The form of historical bytes, by the first of them (ISO/IEC 7816-4, 12.1.1). */
enum {
    GT_HISTORY_NONE = 0,        /* they are missing */
    GT_HISTORY_STATUS = 1,      /* 00: objects in COMPACT-TLV, and then a status: the last three
                                 * bytes, if three or more follow the 00 */
    GT_HISTORY_DIR = 2,         /* 10: the next byte refers to a record of EF.DIR */
    GT_HISTORY_OBJECTS = 3,     /* 80: objects in COMPACT-TLV; the last may be a status */
    GT_HISTORY_RESERVED = 4,    /* 81 to 8F */
    GT_HISTORY_OWN = 5          /* any other: the maker's own form */
};

/* What an answer to reset says of T=1, by the first TA, TB and TC for T=1 from TA3, TB3 and TC3 on.
 * For a missing one the standard's default holds: IFSC 32, BWI 4, CWI 13, LRC (ISO/IEC 7816-3,
 * clause 11). */
typedef struct gt_atr_t1 {
    uint8_t ifsc;               /* IFSC, 1 to 254: the most bytes in the field of a block to the
                                 * card; 0: reserved */
    uint8_t edc;                /* the error detection code, by the number of its bytes: GT_LRC
                                 * or GT_CRC; 0: reserved */
    uint8_t bwi;                /* BWI, 0 to 9; 0 with bwt_etu 0: reserved */
    uint8_t cwi;                /* CWI, 0 to 15 */
    uint16_t cwt_etu;           /* CWT: the most from one character of a block to the next, in etu:
                                 * 11 + 2^CWI */
    uint16_t bwt_etu;           /* BWT: the most from the last character of a block to the card to
                                 * the first of its answer, in etu: 11; 0: BWI is reserved .. */
    uint16_t bgt_etu;           /* BGT: the least from the last character of a block to the first of
                                 * one the other way, in etu: 22 */
    uint64_t bwt_cycles GT_AT_8_; /* .. and as many clock cycles more, 2^BWI * 960 * 372; 0 with
                                 * bwt_etu. An S(WTX) multiplies both for one block */
} gt_atr_t1;

/* What an answer to reset says, by its characters. For a missing one the standard's default holds
 * (ISO/IEC 7816-3, 8.2, 8.3, 10.2 for WI, and clause 11 for T=1). A reserved code of Fi, Di, WI,
 * the classes or T=1 gives 0. */
typedef struct gt_atr {
    size_t length GT_AT_8_;     /* the number of its bytes, TS and TCK included: 2 to
                                 * GT_ATR_LIMIT */
    size_t historical GT_AT_8_; /* the place of the first historical byte, from 0 for TS; without
                                 * any, the place after the interface bytes */
    size_t historical_count GT_AT_8_; /* their number, 0 to 15 */
    uint8_t category GT_AT_8_;  /* their form: GT_HISTORY_NONE .. GT_HISTORY_OWN */
    uint8_t convention;         /* GT_DIRECT or GT_INVERSE */
    uint8_t protocol_count;     /* the number of protocols offered, 1 to GT_PROTOCOLS_LIMIT */
    uint8_t protocols[GT_PROTOCOLS_LIMIT]; /* T of each, in the order offered; then 0 */
    uint8_t names_15;           /* 1 if T=15 is named, which is not a protocol, else 0 */
    uint8_t rate_code;          /* TA1, or 0x11: the codes of Fi and of Di, as PPS1 has them */
    uint8_t di;                 /* Di; 0: reserved */
    uint8_t extra_guard_time;   /* N: TC1, or 0 */
    uint8_t waiting_integer;    /* WI of T=0: TC2, or 10; 0: reserved */
    uint8_t specific;           /* 1 in specific mode, by TA2; else 0, and the next three are 0 */
    uint8_t specific_t;         /* the protocol of the card after its answer, at once, offered or
                                 * not */
    uint8_t can_change;         /* 1 if the card can change to negotiable mode, else 0 */
    uint8_t implicit;           /* 1 if Fi and Di are implicit, and not those of TA1, else 0 */
    uint8_t clock_stop;         /* where the clock may stop, by the first TA for T=15: GT_STOP_NONE
                                 * .. GT_STOP_EITHER; GT_STOP_NONE without it */
    uint8_t classes;            /* the sum of the classes that the card takes, by the same TA:
                                 * GT_CLASS_A (5 V), GT_CLASS_B (3 V) and GT_CLASS_C (1.8 V);
                                 * GT_CLASS_A without it; 0: reserved */
    uint16_t fi;                /* Fi; 0: reserved */
    uint16_t max_khz;           /* the highest clock frequency in kHz; 0 with Fi */
    uint16_t guard_etu;         /* the least from one character to the card to the next, in etu, in
                                 * any protocol but T=1 .. */
    uint16_t guard_etu_t1;      /* .. and in T=1 .. */
    uint16_t guard_indicated;   /* .. and in each as many times Fi/Di clock cycles, by TA1, more */
    uint32_t waiting_time;      /* of T=0 in clock cycles, WI * 960 * Fi; 0 with WI or Fi */
    gt_atr_t1 t1;               /* what it says of T=1 */
} gt_atr;

/* Handles: 16 bytes each, which the caller owns; their content is on the heap. Each has these
 * calls, in the order of use; those after .. may come at any time in between:
 *
 * - gt_exchange_  start or start_within; next and take, send_bytes and receive_bytes, tpdu and
 *                 answered, or apdu and responded; answer; .. data_sent; free
 * - gt_terminal_  new or new_within; then, again and again: select, get, put or send; those of an
 *                 exchange; answer; .. data_sent, reset; free
 * - gt_t1_        new; then, again and again: begin; send_bytes, and receive_bytes, missed or
 *                 damaged; response or fault; .. reset; free
 * - gt_card_      new; app and object; finish; take and turn, send_bytes and receive_bytes, tpdu
 *                 or apdu; or t1_begin, then t1_receive_bytes, t1_missed or t1_damaged, and
 *                 t1_send_bytes; .. plan, selected, app_at, entry_at, reset; free. A card of your
 *                 own has `own` in place of new to finish; command, direction, respond, more_time;
 *                 .. settled
 * - gt_session_   start, with a card; listen, to call heard; select, get, put or send; .. answer,
 *                 heard, idle, plan, selected, app_at, entry_at, reset; end, which gives the card
 *                 back, or free
 *
 * The most bytes that a handle asks of the heap at once, without the heap's own needs for each
 * block; of cards, those of data objects:
 *
 * - an exchange   272 and its limit on the response, which is 16,384 if none is given, and the
 *                 bytes of the command's data: at most 16,911
 * - a terminal    464. The first operation adds its limit on a response, 16,384 if none is given,
 *                 and the data that it sends: an identifier, a value, or those of a command. That
 *                 part grows with the longest data so far; the old copy stays until the new one is
 *                 made
 * - by commands   an exchange and a terminal take room for the response and the data once more. A
 *                 terminal keeps both
 * - a card        10,571 with one application and one object of 3 bytes, and 27,234 together with a
 *                 gt_exchange of SELECT or GET DATA by characters; 4,241,200 with all that a card
 *                 can hold. A call of gt_card_tpdu adds at most 256, of gt_card_apdu 512, and what
 *                 PUT DATA takes: see gt_card_tpdu. gt_card_t1_begin adds 519. A command at T=1
 *                 adds at most 512 and the bytes of the value that it stores
 * - gt_t1         629 and its limit on a response. Beyond 261 bytes the longest command takes its
 *                 bytes in place of 261; while gt_t1_begin copies it, the longest before it too
 * - a session     26,961 with that small card, for a select, a put of 3 bytes and a get; 43,339 for
 *                 a put and a get of 8,192 bytes. If somebody listens, 27,217 and 117,064
 * - plans         at most 192 for each of the most plans that waited at once since none did; and
 *                 one for each letter, until the next plan is taken
 *
 * All that a freed handle held goes back to the heap, and is wiped (galliumtoad_heap.h). Until then
 * a handle keeps these bytes, secrets included:
 *
 * - an exchange   its command and the response
 * - a terminal    what it sent and received, until a later operation overwrites it, or
 *                 gt_terminal_reset
 * - gt_t1         its command and the response, until the next command begins, or gt_t1_reset; the
 *                 bytes of a block, until it is taken or dropped
 * - a card        each value, until another is stored under its tag; the bytes of a TPDU, until its
 *                 second status byte; those of a chain, until it is stored, refused or dropped. It
 *                 is proved that the last two are then cleared. At T=1 also those of a block, until
 *                 it is taken or dropped; of a command, until it is carried out or dropped; and of
 *                 a response, until it is dropped. The next command drops a response. S(ABORT),
 *                 S(RESYNCH) and gt_card_reset drop all three. Of your own: a response, until all
 *                 of it is sent or the next command drops it. A TPDU or command that waits as a
 *                 whole or at T=1, until it is carried out or dropped. gt_card_reset drops both
 * - a session     those of its card; the last answer and, if somebody listens, its characters,
 *                 until the next operation is carried out, or gt_session_end */
typedef struct gt_exchange { bool live; void *held GT_AT_8_; } gt_exchange;
typedef struct gt_terminal { bool live; void *held GT_AT_8_; } gt_terminal;
typedef struct gt_t1 { bool live; void *held GT_AT_8_; } gt_t1;
typedef struct gt_card { bool live; void *held GT_AT_8_; } gt_card;
typedef struct gt_session { bool live; void *held GT_AT_8_; } gt_session;

/* ---- The archive's functions -----------------------------------------------------------------
 *
 * Do not call these: they do not check for NULL. The functions below check, and call them. */

int32_t galliumtoad_objects(const uint8_t *bytes, size_t n, gt_object *objects, size_t room,
                            size_t *count, size_t *place);
int32_t galliumtoad_find(const uint8_t *bytes, size_t n, const uint32_t *path, size_t steps,
                         gt_object *object, size_t *place);
int32_t galliumtoad_head(uint32_t tag, uint16_t length, uint8_t *head, size_t room, size_t *len);
int32_t galliumtoad_atr_read(const uint8_t *bytes, size_t n, gt_atr *atr, size_t *place);
int32_t galliumtoad_pps_request(uint8_t t, uint16_t pps1, uint16_t pps2, uint16_t pps3,
                                uint8_t *request, size_t room, size_t *n);
int32_t galliumtoad_pps_agreed(const uint8_t *request, size_t n, const uint8_t *response,
                               size_t m);
uint32_t galliumtoad_version(void);
int32_t galliumtoad_exchange_start(gt_exchange *e, const uint8_t *command, size_t n);
int32_t galliumtoad_exchange_start_within(gt_exchange *e, const uint8_t *command, size_t n,
                                          size_t limit);
int32_t galliumtoad_exchange_next(gt_exchange *e, uint8_t *byte);
int32_t galliumtoad_exchange_take(gt_exchange *e, uint8_t byte);
int32_t galliumtoad_exchange_send_bytes(gt_exchange *e, uint8_t *bytes, size_t room, size_t *n);
int32_t galliumtoad_exchange_receive_bytes(gt_exchange *e, const uint8_t *bytes, size_t n,
                                           size_t *taken);
int32_t galliumtoad_exchange_answer(gt_exchange *e, uint16_t *status,
                                    uint8_t *data, size_t room, size_t *len);
int32_t galliumtoad_exchange_tpdu(gt_exchange *e, uint8_t *tpdu, size_t room, size_t *n,
                                  size_t *most);
int32_t galliumtoad_exchange_answered(gt_exchange *e, const uint8_t *answer, size_t n);
int32_t galliumtoad_exchange_apdu(gt_exchange *e, uint8_t *apdu, size_t room, size_t *n,
                                  size_t *most);
int32_t galliumtoad_exchange_responded(gt_exchange *e, const uint8_t *response, size_t n);
int32_t galliumtoad_exchange_data_sent(gt_exchange *e);
void galliumtoad_exchange_free(gt_exchange *e);
int32_t galliumtoad_terminal_new(gt_terminal *t);
int32_t galliumtoad_terminal_new_within(gt_terminal *t, size_t limit);
int32_t galliumtoad_terminal_reset(gt_terminal *t);
int32_t galliumtoad_terminal_select(gt_terminal *t, const uint8_t *aid, size_t n);
int32_t galliumtoad_terminal_get(gt_terminal *t, uint32_t tag);
int32_t galliumtoad_terminal_put(gt_terminal *t, uint32_t tag, const uint8_t *value, size_t n);
int32_t galliumtoad_terminal_send(gt_terminal *t, const uint8_t *command, size_t n);
int32_t galliumtoad_terminal_next(gt_terminal *t, uint8_t *byte);
int32_t galliumtoad_terminal_take(gt_terminal *t, uint8_t byte);
int32_t galliumtoad_terminal_send_bytes(gt_terminal *t, uint8_t *bytes, size_t room, size_t *n);
int32_t galliumtoad_terminal_receive_bytes(gt_terminal *t, const uint8_t *bytes, size_t n,
                                           size_t *taken);
int32_t galliumtoad_terminal_tpdu(gt_terminal *t, uint8_t *tpdu, size_t room, size_t *n,
                                  size_t *most);
int32_t galliumtoad_terminal_answered(gt_terminal *t, const uint8_t *answer, size_t n);
int32_t galliumtoad_terminal_apdu(gt_terminal *t, uint8_t *apdu, size_t room, size_t *n,
                                  size_t *most);
int32_t galliumtoad_terminal_responded(gt_terminal *t, const uint8_t *response, size_t n);
int32_t galliumtoad_terminal_answer(gt_terminal *t, uint16_t *status,
                                    uint8_t *data, size_t room, size_t *len);
int32_t galliumtoad_terminal_data_sent(gt_terminal *t);
void galliumtoad_terminal_free(gt_terminal *t);
int32_t galliumtoad_t1_new(gt_t1 *t, uint8_t edc, uint8_t ifsc, uint8_t tries,
                           uint16_t extensions, size_t limit);
int32_t galliumtoad_t1_begin(gt_t1 *t, const uint8_t *apdu, size_t n);
int32_t galliumtoad_t1_send_bytes(gt_t1 *t, uint8_t *bytes, size_t room, size_t *n,
                                  uint8_t *waits);
int32_t galliumtoad_t1_receive_bytes(gt_t1 *t, const uint8_t *bytes, size_t n, size_t *taken);
int32_t galliumtoad_t1_missed(gt_t1 *t);
int32_t galliumtoad_t1_damaged(gt_t1 *t);
int32_t galliumtoad_t1_response(gt_t1 *t, uint8_t *response, size_t room, size_t *len);
int32_t galliumtoad_t1_fault(gt_t1 *t, int32_t *cause, int32_t *outcome);
int32_t galliumtoad_t1_reset(gt_t1 *t);
void galliumtoad_t1_free(gt_t1 *t);
int32_t galliumtoad_card_new(gt_card *c);
int32_t galliumtoad_card_app(gt_card *c, const uint8_t *aid, size_t n);
int32_t galliumtoad_card_object(gt_card *c, uint32_t tag, const uint8_t *value, size_t n,
                                bool locked);
int32_t galliumtoad_card_finish(gt_card *c);
int32_t galliumtoad_card_take(gt_card *c, uint8_t byte);
int32_t galliumtoad_card_turn(gt_card *c, uint8_t *byte);
int32_t galliumtoad_card_send_bytes(gt_card *c, uint8_t *bytes, size_t room, size_t *n);
int32_t galliumtoad_card_receive_bytes(gt_card *c, const uint8_t *bytes, size_t n,
                                       size_t *taken);
int32_t galliumtoad_card_reset(gt_card *c);
int32_t galliumtoad_card_tpdu(gt_card *c, const uint8_t *tpdu, size_t n, uint8_t *answer,
                              size_t room, size_t *len);
int32_t galliumtoad_card_apdu(gt_card *c, const uint8_t *apdu, size_t n, uint8_t *response,
                              size_t room, size_t *len);
int32_t galliumtoad_card_t1_begin(gt_card *c);
int32_t galliumtoad_card_t1_send_bytes(gt_card *c, uint8_t *bytes, size_t room, size_t *n);
int32_t galliumtoad_card_t1_receive_bytes(gt_card *c, const uint8_t *bytes, size_t n,
                                          size_t *taken);
int32_t galliumtoad_card_t1_missed(gt_card *c);
int32_t galliumtoad_card_t1_damaged(gt_card *c);
int32_t galliumtoad_card_own(gt_card *c, const uint8_t *directions, size_t n);
int32_t galliumtoad_card_command(gt_card *c, gt_command *command);
int32_t galliumtoad_card_direction(gt_card *c, bool to_card);
int32_t galliumtoad_card_respond(gt_card *c, const uint8_t *data, size_t n, uint16_t status);
int32_t galliumtoad_card_more_time(gt_card *c, uint8_t multiple);
int32_t galliumtoad_card_settled(gt_card *c);
int32_t galliumtoad_card_plan(gt_card *c, const char *steps, size_t n, uint16_t cut);
int32_t galliumtoad_card_selected(gt_card *c, uint8_t *aid, size_t room, size_t *n);
int32_t galliumtoad_card_app_at(gt_card *c, size_t app, uint8_t *aid, size_t room, size_t *n);
int32_t galliumtoad_card_entry_at(gt_card *c, size_t app, size_t entry, uint32_t *tag,
                                  int32_t *locked, uint8_t *value, size_t room, size_t *len);
void galliumtoad_card_free(gt_card *c);
int32_t galliumtoad_session_start(gt_session *s, gt_card *c);
int32_t galliumtoad_session_idle(gt_session *s);
int32_t galliumtoad_session_plan(gt_session *s, const char *steps, size_t n, uint16_t cut);
int32_t galliumtoad_session_select(gt_session *s, const uint8_t *aid, size_t n);
int32_t galliumtoad_session_get(gt_session *s, uint32_t tag);
int32_t galliumtoad_session_put(gt_session *s, uint32_t tag, const uint8_t *value, size_t n);
int32_t galliumtoad_session_send(gt_session *s, const uint8_t *command, size_t n);
int32_t galliumtoad_session_answer(gt_session *s, uint16_t *status,
                                   uint8_t *data, size_t room, size_t *len);
int32_t galliumtoad_session_listen(gt_session *s);
int32_t galliumtoad_session_heard(gt_session *s, gt_character *line, size_t room,
                                  size_t *count);
int32_t galliumtoad_session_reset(gt_session *s);
int32_t galliumtoad_session_selected(gt_session *s, uint8_t *aid, size_t room, size_t *n);
int32_t galliumtoad_session_app_at(gt_session *s, size_t app, uint8_t *aid, size_t room,
                                   size_t *n);
int32_t galliumtoad_session_entry_at(gt_session *s, size_t app, size_t entry, uint32_t *tag,
                                     int32_t *locked, uint8_t *value, size_t room, size_t *len);
int32_t galliumtoad_session_end(gt_session *s, gt_card *c);
void galliumtoad_session_free(gt_session *s);

/* Only for the functions below. A pointer to bytes: for NULL one to a byte that can be read. */
GT_INLINE const uint8_t *gt_bytes_(const uint8_t *bytes) {
    static const uint8_t none[1] = { 0 };
    return bytes ? bytes : none;
}

/* Only for the functions below. A card carries out a copy of these bytes, which is wiped. Longer
 * input is cut to one byte more than the longest command: no command and no TPDU, as before. */
GT_INLINE int32_t gt_pass_(int32_t (*carry_out)(gt_card *, const uint8_t *, size_t, uint8_t *,
                                                size_t, size_t *),
                           gt_card *c, const uint8_t *bytes, size_t n, uint8_t *answer,
                           size_t room, size_t *len) {
    union {
        uint8_t bytes[GT_APDU_LIMIT + 1];
        uint64_t words[GT_APDU_LIMIT / 8 + 1];
    } copy = { { 0 } };
    volatile uint64_t *wiped = copy.words;
    uint8_t none = 0;
    int32_t code;
    size_t i;
    if (!c || (!bytes && n) || (!answer && room) || !len) return GT_NULL;
    if (n > sizeof copy.bytes) n = sizeof copy.bytes;
    for (i = 0; i < n; i++) copy.bytes[i] = bytes[i];
    code = carry_out(c, copy.bytes, n, answer ? answer : &none, room, len);
    for (i = 0; i < (n + 7) / 8; i++) wiped[i] = 0;
    return code;
}

/* ---- Data objects (EMV Book 3, Annex B) ------------------------------------------------------
 *
 * `bytes` is a list of objects: each a tag, a length and a value. Padding, 00 before, between and
 * after objects, is skipped: no object contains it. A length is 00 to 7F, 81 and one byte, or 82
 * and two bytes, the longest form; 83 and above are GT_LENGTH_FORM. The value of a constructed
 * object (a template) is such a list, one level further in. The list itself is at level 1. These
 * functions take no memory. */

/* Lists all objects of all levels of a list, in the order of their first bytes: a template comes
 * before the objects in it. `count` gets their number. With room 0 the call only checks and counts;
 * `objects` may then be NULL. `count` and `place` may not. The call takes up to 2.3 KB of stack,
 * for 16 levels.
 *
 * - GT_OK: all of them are in `objects`, from its front, or room is 0. `count` is set here too.
 * - GT_BUFFER: the bytes are a list of more than `room` objects; `count` is their number, and the
 *   first `room` of them are in `objects`.
 * - GT_TAG_CUT to GT_TOO_DEEP: the bytes are not a list of objects. This is their first fault, and
 *   `place` gets the place of the innermost object at fault. Nothing else changes `place`, and
 *   `count` is unchanged. */
GT_MUST_CHECK int32_t gt_objects(const uint8_t *bytes, size_t n, gt_object *objects, size_t room,
                                 size_t *count, size_t *place) {
    gt_object none;
    if ((!bytes && n) || (!objects && room) || !count || !place) return GT_NULL;
    return galliumtoad_objects(gt_bytes_(bytes), n, objects ? objects : &none, room, count, place);
}

/* Finds the object at a path: the first one, in the order of the bytes, whose tags from level 1
 * down to its own are the `steps` numbers of `path`. With { 0x6F, 0x84 } it is the first 84 in a
 * 6F, with { 0x84 } the first 84 at level 1. `object` gets its places in `bytes`: its value is the
 * object->length bytes from bytes + object->value on. Neither `object` nor `place` may be NULL.
 *
 * - GT_OK: it is there. Nothing else changes `object`.
 * - GT_ARGUMENT: a step is not a tag of one to three bytes, whatever the bytes are.
 * - GT_TAG_CUT to GT_TOO_DEEP: the bytes are not a list of objects, wherever the path leads. This
 *   is their first fault, and `place` gets its place as in `gt_objects`. Nothing else changes
 *   `place`.
 * - GT_NOT_FOUND: the bytes are a list of objects, and it contains no such object, or the path has
 *   no steps. */
GT_MUST_CHECK int32_t gt_find(const uint8_t *bytes, size_t n, const uint32_t *path, size_t steps,
                              gt_object *object, size_t *place) {
    static const uint32_t none[1] = { 0 };
    if ((!bytes && n) || (!path && steps) || !object || !place) return GT_NULL;
    return galliumtoad_find(gt_bytes_(bytes), n, path ? path : none, steps, object, place);
}

/* Returns whether the bytes are one object with this tag: its tag, length and value, with no
 * padding and nothing else. A template counts only if its value is a list of objects. The data of
 * an answer to GET DATA are one object. Some cards answer 9000 with the value alone.
 *
 * - 1: they are.
 * - 0: they are not, `tag` is not a tag of one to three bytes, `n` is 0, or `bytes` is NULL. */
GT_MUST_CHECK int gt_is_object(const uint8_t *bytes, size_t n, uint32_t tag) {
    gt_object object;
    size_t place;
    return gt_find(bytes, n, &tag, 1, &object, &place) == GT_OK && object.size == n;
}

/* Writes how an object begins, at the front of `head`: its tag, and the length of its value in the
 * shortest form, 2 to 6 bytes. `len` gets their number.
 *
 * - GT_OK.
 * - GT_ARGUMENT: no tag of one to three bytes has this number. */
GT_MUST_CHECK int32_t gt_head(uint32_t tag, uint16_t length, uint8_t head[6], size_t *len) {
    if (!head || !len) return GT_NULL;
    return galliumtoad_head(tag, length, head, 6, len);
}

/* ---- Answers to reset, and PPS (ISO/IEC 7816-3, clauses 8 and 9) -----------------------------
 *
 * These functions take no memory. */

/* Reads an answer to reset: `bytes` is all of it and no more. In the inverse convention the bytes
 * are as they are meant: TS is 3F.
 *
 * - GT_OK: `atr` is set. Nothing else changes `atr`.
 * - GT_ATR_NO_TS to GT_ATR_CHECK_WRONG: the bytes are not an answer to reset. This is their first
 *   fault from the left; a wrong check byte comes last. `place` gets the place of the first byte at
 *   fault, from 0 for TS. It gets the number of bytes if one is missing, and 33 with
 *   GT_ATR_TOO_LONG. Nothing else changes `place`.
 *
 * While the result is GT_ATR_CUT or GT_ATR_CHECK_MISSING, read one more byte: there are never more
 * than GT_ATR_LIMIT. */
GT_MUST_CHECK int32_t gt_atr_read(const uint8_t *bytes, size_t n, gt_atr *atr, size_t *place) {
    if ((!bytes && n) || !atr || !place) return GT_NULL;
    return galliumtoad_atr_read(gt_bytes_(bytes), n, atr, place);
}

/* PPS1, PPS2 or PPS3 is absent. */
#define GT_ABSENT 256u

/* Writes a terminal's PPS request for protocol `t`, 0 to 15, to the front of `request`. `pps1` (the
 * codes of Fi and Di, as TA1 has them), `pps2` and `pps3` are bytes, or GT_ABSENT. `n` gets the
 * length of the request, 3 to 6 bytes. The caller knows whether the card offers this: one that
 * doesn't may stay silent.
 *
 * - GT_OK.
 * - GT_ARGUMENT: `t` is above 15, or one of the others above 256. */
GT_MUST_CHECK int32_t gt_pps_request(uint8_t t, uint16_t pps1, uint16_t pps2, uint16_t pps3,
                                     uint8_t request[GT_PPS_LIMIT], size_t *n) {
    if (!request || !n) return GT_NULL;
    return galliumtoad_pps_request(t, pps1, pps2, pps3, request, GT_PPS_LIMIT, n);
}

/* Returns whether a card's response accepts a request (9.3). It does if it names the same protocol,
 * and each of PPS1 to PPS3 is as requested or absent. One that is absent is not agreed: without
 * PPS1 Fi is 372 and Di 1. Compare with == 1.
 *
 * - 1: it does.
 * - 0: it does not. Reset the card, or give it up.
 * - GT_ARGUMENT: `request` is not a PPS request, whatever `response` is.
 * - GT_PPS_NO_PPSS to GT_PPS_CHECK_WRONG: `response` is not a PPS response. This is its first fault
 *   from the left; a wrong PCK comes last. */
GT_MUST_CHECK int32_t gt_pps_agreed(const uint8_t *request, size_t n, const uint8_t *response,
                                    size_t m) {
    if ((!request && n) || (!response && m)) return GT_NULL;
    return galliumtoad_pps_agreed(gt_bytes_(request), n, gt_bytes_(response), m);
}

/* ---- The version ----------------------------------------------------------------------------- */

/* Returns the version of the header that the library was built for, in the form of GT_VERSION. */
GT_FUNCTION uint32_t gt_version(void) {
    return galliumtoad_version();
}

/* Returns whether the library fits this header: 1 if both have the same major and the same minor
 * number, else 0. */
GT_MUST_CHECK int gt_version_fits(void) {
    return gt_version() / 0x100 == GT_VERSION / 0x100;
}

/* ---- A terminal's exchange of one command (ISO/IEC 7816-3, clause 12) ------------------------ */

/* Starts the exchange of a command, in a handle that holds nothing. The command has short lengths
 * (ISO/IEC 7816-4, 5.1): CLA INS P1 P2, then nothing, or Le, or Lc and data, or Lc, data and Le. It
 * is copied. By characters and TPDUs an exchange takes all its memory here.
 *
 * An exchange may be several TPDUs. If the card answers 6CXX to one that asks for data, the
 * terminal sends it again with XX, once, unless XX is more than it still wants. If the card answers
 * 61XX, and the terminal wants more, it sends GET RESPONSE. Any other answer ends the exchange.
 * With Le 00 it wants all there is, with another Le at most that many bytes, without Le none: a
 * SELECT without Le ends at 61XX, with no data. So end a command with 00 for a whole answer.
 *
 * Over T=0 no header says which way data move: both ends must know it from INS. `gt_session_send`
 * names the commands that the card takes the other way. With one of these the card may get
 * characters while it sends (GT_NOT_LISTENING), or both ends deadlock, as with 00 A4 04 00 05:
 * `gt_exchange_next` and then `gt_card_turn` return GT_OK. Free the exchange then, and reset the
 * card.
 *
 * - GT_OK: it has started, and sends first.
 * - GT_STATE: the handle holds an exchange, which stays as it was.
 * - GT_TOO_SHORT, GT_BAD_LENGTH, GT_INVALID_INS: the bytes are not a command. The handle still
 *   holds nothing.
 * - GT_MEMORY: the handle still holds nothing.
 *
 * It never returns GT_EMPTY. */
GT_MUST_CHECK int32_t gt_exchange_start(gt_exchange *e, const uint8_t *command, size_t n) {
    if (!e || (!command && n)) return GT_NULL;
    return galliumtoad_exchange_start(e, gt_bytes_(command), n);
}

/* As `gt_exchange_start`, for a response of at most `limit` bytes, 0 to GT_RESPONSE_LIMIT. The
 * exchange takes no more memory for it by TPDUs, and at most twice that by whole commands. The
 * first byte beyond is GT_TOO_LONG.
 *
 * - GT_ARGUMENT, before GT_MEMORY and after the others: `limit` is above GT_RESPONSE_LIMIT. The
 *   handle still holds nothing.
 * - The others as above. */
GT_MUST_CHECK int32_t gt_exchange_start_within(gt_exchange *e, const uint8_t *command, size_t n,
                                               size_t limit) {
    if (!e || (!command && n)) return GT_NULL;
    return galliumtoad_exchange_start_within(e, gt_bytes_(command), n, limit);
}

/* Returns what the terminal does now.
 *
 * - GT_SENDS: `byte` gets a character for the card. Send it now.
 * - GT_OK: it waits for a character of the card, for `gt_exchange_take`.
 * - GT_DONE: the exchange has ended, and has its answer.
 * - GT_FAILED: it has failed for good.
 *
 * Only GT_SENDS changes `byte` and the exchange: the character does not come again. */
GT_MUST_CHECK int32_t gt_exchange_next(gt_exchange *e, uint8_t *byte) {
    if (!e || !byte) return GT_NULL;
    return galliumtoad_exchange_next(e, byte);
}

/* Takes a character of the card. If it completes a status, the next TPDU begins, or the exchange
 * has ended.
 *
 * - GT_OK: it is taken.
 * - GT_BAD_PROCEDURE, GT_TOO_LONG, GT_STALLED: with it the exchange has failed for good.
 * - GT_NOT_LISTENING: the exchange has characters to send. Nothing has changed.
 * - GT_AFTER_END: it has ended, or has failed. Nothing has changed. */
GT_MUST_CHECK int32_t gt_exchange_take(gt_exchange *e, uint8_t byte) {
    if (!e) return GT_NULL;
    return galliumtoad_exchange_take(e, byte);
}

/* The next two pass characters by buffers, for a line that carries many at once. Each repeats one
 * of the two above, and stops when that returns something else.
 *
 * Hands out what the terminal sends now, at most `room` characters, at the front of `bytes`. `n`
 * gets their number, which may be 0. The rest of `bytes` is unchanged.
 *
 * - GT_SENDS: `bytes` is full, with `room` characters, and there may be more: call again. With room
 *   0 it is always this, whatever the exchange does next, except at the other level.
 * - GT_OK: after them it waits for a character of the card.
 * - GT_DONE: after them the exchange has ended.
 * - GT_FAILED: it has failed for good. `n` is set here too. */
GT_MUST_CHECK int32_t gt_exchange_send_bytes(gt_exchange *e, uint8_t *bytes, size_t room,
                                             size_t *n) {
    uint8_t none = 0;
    if (!e || (!bytes && room) || !n) return GT_NULL;
    return galliumtoad_exchange_send_bytes(e, bytes ? bytes : &none, room, n);
}

/* Takes `n` characters of the card, one after another, up to the first fault. `taken` gets the
 * number taken before it. Those after it were not looked at.
 *
 * - GT_OK: all were taken, also if `n` is 0. This may end the exchange: see
 *   `gt_exchange_send_bytes`.
 * - GT_BAD_PROCEDURE, GT_TOO_LONG, GT_STALLED: with the character at the place `taken` the exchange
 *   has failed for good.
 * - GT_NOT_LISTENING: after those taken it has characters to send. The next one has changed
 *   nothing.
 * - GT_AFTER_END: it has ended, or has failed. The next one has changed nothing. */
GT_MUST_CHECK int32_t gt_exchange_receive_bytes(gt_exchange *e, const uint8_t *bytes, size_t n,
                                                size_t *taken) {
    if (!e || (!bytes && n) || !taken) return GT_NULL;
    return galliumtoad_exchange_receive_bytes(e, gt_bytes_(bytes), n, taken);
}

/* Copies the answer of an exchange that has ended: `status` gets the status word (0x9000), `len`
 * the number of data bytes, 0 to GT_RESPONSE_LIMIT, and `data` these bytes. Each further call gives
 * the same, until the exchange is freed.
 *
 * - GT_OK: all of it.
 * - GT_BUFFER: `room` is less than the data. `status` and `len` are the answer's, `data` is
 *   unchanged.
 * - GT_STATE: there is no answer, since the exchange is in progress or has failed. */
GT_MUST_CHECK int32_t gt_exchange_answer(gt_exchange *e, uint16_t *status,
                                         uint8_t *data, size_t room, size_t *len) {
    uint8_t none = 0;
    if (!e || !status || (!data && room) || !len) return GT_NULL;
    return galliumtoad_exchange_answer(e, status, data ? data : &none, room, len);
}

/* The next two are for a reader that carries whole TPDUs, as PC/SC does (SCardTransmit at T=0). A
 * TPDU is the header alone, if no data move; the header and P3, if at most P3 bytes come back (00:
 * 256); or the header, P3 from 01 on, and P3 bytes of data. Its answer is data, and then SW1 SW2.
 *
 * Copies the next TPDU to the front of `tpdu`, if none of its characters was sent. `n` gets its
 * length, 4 to 260 bytes, and `most` how many bytes of data may come back, 0 to 256.
 *
 * - GT_OK: the next call gives the same.
 * - GT_NOT_DUE: a character of the TPDU was sent, or the exchange has ended or has failed. */
GT_MUST_CHECK int32_t gt_exchange_tpdu(gt_exchange *e, uint8_t tpdu[GT_TPDU_LIMIT],
                                       size_t *n, size_t *most) {
    if (!e || !tpdu || !n || !most) return GT_NULL;
    return galliumtoad_exchange_tpdu(e, tpdu, GT_TPDU_LIMIT, n, most);
}

/* Takes the answer to the TPDU of `gt_exchange_tpdu`. The exchange continues as after the
 * characters of any TPDU that brings these data and this status: another TPDU follows, or it has
 * ended.
 *
 * - GT_OK: it is taken.
 * - GT_NO_STATUS: there are fewer than two bytes, or the last two are not a status word (6X except
 *   60, or 9X, and any byte). Nothing has changed.
 * - GT_NOT_DUE: see `gt_exchange_tpdu`. Nothing has changed.
 * - GT_NOT_ASKED, GT_TOO_MANY: more data came back than may. Nothing has changed.
 * - GT_TOO_LONG, GT_STALLED: the exchange has failed for good. */
GT_MUST_CHECK int32_t gt_exchange_answered(gt_exchange *e, const uint8_t *answer, size_t n) {
    if (!e || (!answer && n)) return GT_NULL;
    return galliumtoad_exchange_answered(e, gt_bytes_(answer), n);
}

/* The next two are for a reader that carries whole commands (APDUs), as PC/SC does for a card at
 * T=1 or without contacts. The first is the exchange's own command, with its Le. By the rules of
 * `gt_exchange_start` GET RESPONSE follows 61XX, and a command of case 2 is sent again after 6CXX.
 *
 * The first character sent, or the first answer that is taken or fails the exchange, sets the
 * level: characters and TPDUs, or commands. From then on, also once the exchange has ended or
 * failed, calls of the other level return GT_STATE, and change nothing.
 *
 * Copies the command to send now to the front of `apdu`. `n` gets its length, 4 to GT_APDU_LIMIT
 * bytes, and `most` how many bytes of data may come back, 0 to 256.
 *
 * - GT_OK: the next call gives the same.
 * - GT_NOT_DUE: the exchange has ended or has failed.
 * - GT_MEMORY: it ran out for this level, which takes its memory by the first of these calls. */
GT_MUST_CHECK int32_t gt_exchange_apdu(gt_exchange *e, uint8_t apdu[GT_APDU_LIMIT],
                                       size_t *n, size_t *most) {
    if (!e || !apdu || !n || !most) return GT_NULL;
    return galliumtoad_exchange_apdu(e, apdu, GT_APDU_LIMIT, n, most);
}

/* Takes the response to the command of `gt_exchange_apdu`: data, and then SW1 SW2. Another command
 * follows, or the exchange has ended.
 *
 * - GT_OK: it is taken.
 * - GT_MEMORY: see `gt_exchange_apdu`. Nothing has changed.
 * - GT_NO_STATUS: see `gt_exchange_answered`. Nothing has changed.
 * - GT_NOT_DUE: see `gt_exchange_apdu`. Nothing has changed.
 * - GT_NOT_ASKED, GT_TOO_MANY: more data came back than may. Nothing has changed.
 * - GT_TOO_LONG, GT_STALLED: the exchange has failed for good. */
GT_MUST_CHECK int32_t gt_exchange_responded(gt_exchange *e, const uint8_t *response, size_t n) {
    if (!e || (!response && n)) return GT_NULL;
    return galliumtoad_exchange_responded(e, gt_bytes_(response), n);
}

/* Returns whether all data of the command have left the terminal. A card may end a TPDU with any
 * status before it takes the data: then a status 61XX, 62XX, 63XX or 9XXX is no success.
 *
 * - GT_SENT_UNKNOWN: the answer to a whole TPDU or command was taken, even without data, or
 *   GT_BAD_PROCEDURE or GT_TOO_LONG has ended the last TPDU. By characters and TPDUs
 *   GT_NOT_ALL_SENT of another TPDU comes first.
 * - GT_ALL_SENT: else, they have, or the command has no data.
 * - GT_NOT_ALL_SENT: else, they have not, and won't once the exchange has ended. */
GT_MUST_CHECK int32_t gt_exchange_data_sent(gt_exchange *e) {
    if (!e) return GT_NULL;
    return galliumtoad_exchange_data_sent(e);
}

/* Frees the exchange, at any time. The handle then holds nothing, and may be used again. Does
 * nothing for a handle that holds nothing, or for NULL. */
GT_FUNCTION void gt_exchange_free(gt_exchange *e) {
    if (e) galliumtoad_exchange_free(e);
}

/* ---- A terminal, for the objects of a card over any line -------------------------------------
 *
 * An operation may be several commands and many TPDUs. A terminal sends them one after another; the
 * caller carries its characters, its whole TPDUs or its commands to a card and back.
 * `gt_terminal_select`, `_get`, `_put` and `_send` start one. GT_DONE of `gt_terminal_next` says
 * that it has ended, or by whole commands GT_NOT_DUE of `gt_terminal_apdu`. `gt_terminal_answer`
 * gives its answer, the status and the data of its last command.
 *
 * No chain may be pending at the card when an operation starts, unless `gt_terminal_send` continues
 * it. One may be after a fault: a put under the same tag would continue it, and the card may refuse
 * any other with 6883. So reset the card after a fault.
 *
 * A terminal keeps the memory of an operation for the next: room for a response, and a copy of the
 * data that go to the card. The next takes more only for more data than any before.
 * `gt_terminal_reset` and `gt_terminal_free` free it. */

/* Makes a terminal that has started no operation, in a handle that holds nothing.
 *
 * - GT_OK.
 * - GT_STATE: the handle holds a terminal, which stays as it was.
 * - GT_MEMORY: the handle still holds nothing.
 *
 * It never returns GT_EMPTY. */
GT_MUST_CHECK int32_t gt_terminal_new(gt_terminal *t) {
    if (!t) return GT_NULL;
    return galliumtoad_terminal_new(t);
}

/* As `gt_terminal_new`, for responses of at most `limit` bytes to a command, 0 to
 * GT_RESPONSE_LIMIT. No operation takes more memory for one by TPDUs, and at most twice that by
 * whole commands. The first byte beyond is GT_TOO_LONG.
 *
 * - GT_ARGUMENT, before GT_MEMORY: `limit` is above GT_RESPONSE_LIMIT. The handle still holds
 *   nothing.
 * - The others as above. */
GT_MUST_CHECK int32_t gt_terminal_new_within(gt_terminal *t, size_t limit) {
    if (!t) return GT_NULL;
    return galliumtoad_terminal_new_within(t, limit);
}

/* Drops the last operation, at any point of it, and its answer. Frees the memory kept for the next.
 * The limit stays. The card does not notice: reset it too. Returns GT_OK. */
GT_FUNCTION int32_t gt_terminal_reset(gt_terminal *t) {
    if (!t) return GT_NULL;
    return galliumtoad_terminal_reset(t);
}

/* Starts the selection of an application by its identifier, and drops the last answer. By
 * characters and TPDUs an operation takes all its memory here, beside what an earlier one has left.
 *
 * - GT_OK: it has started, and sends first.
 * - GT_STATE: an operation is in progress: it has neither ended nor failed. Nothing has changed.
 * - GT_ARGUMENT: the identifier does not have 5 to 16 bytes. Nothing has changed.
 * - GT_MEMORY: nothing has changed. */
GT_MUST_CHECK int32_t gt_terminal_select(gt_terminal *t, const uint8_t *aid, size_t n) {
    if (!t || (!aid && n)) return GT_NULL;
    return galliumtoad_terminal_select(t, gt_bytes_(aid), n);
}

/* Starts the reading of a data object of the selected application, and drops the last answer. With
 * 9000 the data should be its tag, length and value: `gt_is_object` tells, since some cards send
 * the value alone. Results as above, except GT_ARGUMENT: GET DATA can't name the tag (see
 * `gt_card_object`). */
GT_MUST_CHECK int32_t gt_terminal_get(gt_terminal *t, uint32_t tag) {
    if (!t) return GT_NULL;
    return galliumtoad_terminal_get(t, tag);
}

/* Starts the storing of a value of any length, which is copied. It is sent in pieces of up to 255
 * bytes, up to the first one that gets another status than 9000. Results as above, except
 * GT_ARGUMENT: PUT DATA can't name the tag. */
GT_MUST_CHECK int32_t gt_terminal_put(gt_terminal *t, uint32_t tag, const uint8_t *value,
                                      size_t n) {
    if (!t || (!value && n)) return GT_NULL;
    return galliumtoad_terminal_put(t, tag, gt_bytes_(value), n);
}

/* Starts the exchange of any one command (as `gt_exchange_start` takes it), which is copied. The
 * last answer is dropped.
 *
 * - GT_OK: it has started, and sends first.
 * - GT_STATE: an operation is in progress. Nothing has changed.
 * - GT_TOO_SHORT, GT_BAD_LENGTH, GT_INVALID_INS: the bytes are not a command. Nothing has changed.
 * - GT_MEMORY: nothing has changed. */
GT_MUST_CHECK int32_t gt_terminal_send(gt_terminal *t, const uint8_t *command, size_t n) {
    if (!t || (!command && n)) return GT_NULL;
    return galliumtoad_terminal_send(t, gt_bytes_(command), n);
}

/* Returns what the terminal does now, as `gt_exchange_next` of its operation. GT_STATE: none has
 * started. */
GT_MUST_CHECK int32_t gt_terminal_next(gt_terminal *t, uint8_t *byte) {
    if (!t || !byte) return GT_NULL;
    return galliumtoad_terminal_next(t, byte);
}

/* Takes a character of the card, as `gt_exchange_take`. After GT_BAD_PROCEDURE, GT_TOO_LONG and
 * GT_STALLED the operation has failed for good, and the next may start: reset the card first.
 * GT_AFTER_END: it has ended or failed, or none has started. Nothing has changed. */
GT_MUST_CHECK int32_t gt_terminal_take(gt_terminal *t, uint8_t byte) {
    if (!t) return GT_NULL;
    return galliumtoad_terminal_take(t, byte);
}

/* Hands out what the terminal sends now, as `gt_exchange_send_bytes` of its operation, from one of
 * its commands to the next. GT_STATE: none has started; `bytes` and `n` are unchanged, also with
 * room 0. */
GT_MUST_CHECK int32_t gt_terminal_send_bytes(gt_terminal *t, uint8_t *bytes, size_t room,
                                             size_t *n) {
    uint8_t none = 0;
    if (!t || (!bytes && room) || !n) return GT_NULL;
    return galliumtoad_terminal_send_bytes(t, bytes ? bytes : &none, room, n);
}

/* Takes characters of the card, as `gt_exchange_receive_bytes`, from one command of the operation
 * to the next. The faults are those of `gt_terminal_take`. */
GT_MUST_CHECK int32_t gt_terminal_receive_bytes(gt_terminal *t, const uint8_t *bytes, size_t n,
                                                size_t *taken) {
    if (!t || (!bytes && n) || !taken) return GT_NULL;
    return galliumtoad_terminal_receive_bytes(t, gt_bytes_(bytes), n, taken);
}

/* Copies the next whole TPDU, as `gt_exchange_tpdu`. GT_NOT_DUE: also if no operation has
 * started. */
GT_MUST_CHECK int32_t gt_terminal_tpdu(gt_terminal *t, uint8_t tpdu[GT_TPDU_LIMIT],
                                       size_t *n, size_t *most) {
    if (!t || !tpdu || !n || !most) return GT_NULL;
    return galliumtoad_terminal_tpdu(t, tpdu, GT_TPDU_LIMIT, n, most);
}

/* Takes the answer to the TPDU of `gt_terminal_tpdu`, as `gt_exchange_answered`. After GT_TOO_LONG
 * and GT_STALLED the operation has failed for good. GT_NOT_DUE: also if no operation has
 * started. */
GT_MUST_CHECK int32_t gt_terminal_answered(gt_terminal *t, const uint8_t *answer, size_t n) {
    if (!t || (!answer && n)) return GT_NULL;
    return galliumtoad_terminal_answered(t, gt_bytes_(answer), n);
}

/* Copies the command to send now, as `gt_exchange_apdu`. Each operation has a level of its own.
 * GT_STATE: also if no operation has started. */
GT_MUST_CHECK int32_t gt_terminal_apdu(gt_terminal *t, uint8_t apdu[GT_APDU_LIMIT],
                                       size_t *n, size_t *most) {
    if (!t || !apdu || !n || !most) return GT_NULL;
    return galliumtoad_terminal_apdu(t, apdu, GT_APDU_LIMIT, n, most);
}

/* Takes the response to the command of `gt_terminal_apdu`, as `gt_exchange_responded`. After
 * GT_TOO_LONG and GT_STALLED the operation has failed for good. GT_STATE: also if no operation has
 * started. */
GT_MUST_CHECK int32_t gt_terminal_responded(gt_terminal *t, const uint8_t *response, size_t n) {
    if (!t || (!response && n)) return GT_NULL;
    return galliumtoad_terminal_responded(t, gt_bytes_(response), n);
}

/* Copies the answer of an operation that has ended, as `gt_exchange_answer`: the status and the
 * data of its last command. It gives the same until the next operation starts, or a reset.
 * GT_STATE: no operation has started, or the last one is in progress or has failed. */
GT_MUST_CHECK int32_t gt_terminal_answer(gt_terminal *t, uint16_t *status,
                                         uint8_t *data, size_t room, size_t *len) {
    uint8_t none = 0;
    if (!t || !status || (!data && room) || !len) return GT_NULL;
    return galliumtoad_terminal_answer(t, status, data ? data : &none, room, len);
}

/* Returns whether all data of the operation's commands so far have left the terminal, as
 * `gt_exchange_data_sent`. By characters, if the card ends a piece of a put before it takes the
 * piece, GT_NOT_ALL_SENT stays for the rest of the operation. GT_STATE: no operation has
 * started. */
GT_MUST_CHECK int32_t gt_terminal_data_sent(gt_terminal *t) {
    if (!t) return GT_NULL;
    return galliumtoad_terminal_data_sent(t);
}

/* Frees the terminal, at any time. The handle then holds nothing, and may be used again. Does
 * nothing for a handle that holds nothing, or for NULL. */
GT_FUNCTION void gt_terminal_free(gt_terminal *t) {
    if (t) galliumtoad_terminal_free(t);
}

/* ---- A terminal's end of a line at T=1 (ISO/IEC 7816-3, clause 11) ---------------------------
 *
 * It carries one whole command (APDU) after another to a card, as blocks with an LRC, over a line
 * that may damage and lose them. Drive it by `gt_terminal_apdu` and `gt_terminal_responded`. For
 * each command:
 *
 * ```
 * gt_t1_begin(&t, apdu, n);
 * while (gt_t1_send_bytes(&t, block, sizeof block, &n, &waits) == GT_OK) {
 *     .. send the n bytes; then hand on each received byte, until this is GT_SENDS:
 *     gt_t1_receive_bytes(&t, bytes, count, &taken);
 *     .. or, if no block begins or the block stops:
 *     gt_t1_missed(&t);
 *     .. or, if a character has a wrong parity:
 *     gt_t1_damaged(&t);
 * }
 * gt_t1_response(&t, response, sizeof response, &n);       or gt_t1_fault
 * ```
 *
 * The caller keeps the times, which `gt_atr.t1` has. The first byte of an answer comes within BWT
 * times `waits` after the last one sent, each further one within CWT. The next block goes BGT after
 * the last of them at the earliest.
 *
 * Before the first command the end sends S(IFS request) with 254. If `tries` + 1 receptions bring
 * no response to that, it sends the command without one, with all its tries. In either case it
 * takes blocks of 254 bytes (profile). It keeps NAD 00, and never sends S(RESYNCH request): if it
 * gives up, reset card and end (profile).
 *
 * R-blocks of both ends say why: 0 acknowledges, 1 is a wrong LRC or parity, and 2 any other error,
 * a missed block too. Both ends take any value. */

/* Makes an end, as after a reset of the card, in a handle that holds nothing. `edc` and `ifsc` are
 * those of `gt_atr.t1`; only LRC is supported (profile).
 *
 * The end survives `tries` fruitless receptions since the last progress, and gives up at one more.
 * During S(IFS request) it then sends the command instead. Progress is the next field of the
 * response, R that acknowledges a field of the command, or the end of S(IFS request). Fruitless are
 * a time-out, an invalid block, and a block that brings no progress, R that asks for a block too.
 * So a lost I-block of the end costs two tries: the time-out, and the card's R. Any other lost
 * block costs one. A request of the card that the end grants is not counted.
 *
 * It grants `extensions` S(WTX request) and S(IFS request) in one command, 0 to 65,535. It takes
 * responses of at most `limit` bytes, status included. GT_T1_TRIES, GT_T1_EXTENSIONS and
 * GT_ANSWER_LIMIT suit short commands.
 *
 * It takes the memory for a command of GT_APDU_LIMIT bytes and a response of `limit` bytes at once.
 * No block takes memory later.
 *
 * - GT_OK.
 * - GT_STATE: the handle holds an end, which stays as it was.
 * - GT_ARGUMENT: `edc` is not GT_LRC, or `ifsc` is 0 or 255. The handle still holds nothing.
 * - GT_MEMORY: the handle still holds nothing.
 *
 * It never returns GT_EMPTY. */
GT_MUST_CHECK int32_t gt_t1_new(gt_t1 *t, uint8_t edc, uint8_t ifsc, uint8_t tries,
                                uint16_t extensions, size_t limit) {
    if (!t) return GT_NULL;
    return galliumtoad_t1_new(t, edc, ifsc, tries, extensions, limit);
}

/* Starts a command of any length, which is copied, and drops the last response.
 *
 * - GT_OK.
 * - GT_STATE: a command is in progress, or the end gave up. Nothing has changed.
 * - GT_MEMORY: only for a command of more than GT_APDU_LIMIT bytes. Nothing has changed. */
GT_MUST_CHECK int32_t gt_t1_begin(gt_t1 *t, const uint8_t *apdu, size_t n) {
    if (!t || (!apdu && n)) return GT_NULL;
    return galliumtoad_t1_begin(t, gt_bytes_(apdu), n);
}

/* Copies the block to send now to `bytes`. `n` gets its length, 4 to GT_BLOCK_LIMIT. `waits` gets
 * how many times BWT the card has for its answer: 1, or as many as it asked for (0 counts as 1).
 * Each further call gives the same block, until `gt_t1_receive_bytes` returns GT_SENDS, or a call
 * of `gt_t1_missed`, `gt_t1_damaged` or `gt_t1_reset`.
 *
 * - GT_OK.
 * - GT_DONE: no command is in progress. The last one has its response, or none has started.
 * - GT_FAILED: the end gave up: see `gt_t1_fault`.
 * - GT_BUFFER: `room` is less than the block; `n` and `waits` are the block's, `bytes` is
 *   unchanged. */
GT_MUST_CHECK int32_t gt_t1_send_bytes(gt_t1 *t, uint8_t *bytes, size_t room, size_t *n,
                                       uint8_t *waits) {
    uint8_t none = 0;
    if (!t || (!bytes && room) || !n || !waits) return GT_NULL;
    return galliumtoad_t1_send_bytes(t, bytes ? bytes : &none, room, n, waits);
}

/* Takes bytes of the card, up to the end of its block. `taken` gets their number. The rest is not
 * part of the block: drop it, and what else comes before the next block is sent.
 *
 * - GT_OK: all are taken, and the block continues.
 * - GT_SENDS: the block is whole. `gt_t1_send_bytes` has the next one, or ends. An invalid block is
 *   a fruitless reception.
 * - GT_STATE: no block is awaited, since no command is in progress or the end gave up. `taken` is
 *   unchanged. */
GT_MUST_CHECK int32_t gt_t1_receive_bytes(gt_t1 *t, const uint8_t *bytes, size_t n,
                                          size_t *taken) {
    if (!t || (!bytes && n) || !taken) return GT_NULL;
    return galliumtoad_t1_receive_bytes(t, gt_bytes_(bytes), n, taken);
}

/* Reports that no valid block of the card came: none began in time, or one stopped for longer than
 * CWT. This is a fruitless reception. The received part of the block is dropped.
 *
 * - GT_OK: `gt_t1_send_bytes` has the next block, or the end gave up.
 * - GT_STATE: no block is awaited. */
GT_MUST_CHECK int32_t gt_t1_missed(gt_t1 *t) {
    if (!t) return GT_NULL;
    return galliumtoad_t1_missed(t);
}

/* Reports that a character of the card's block had a wrong parity: as `gt_t1_missed`, but if
 * an R-block follows, it says so. The other bytes of the block still come: before this call, drop
 * all until none comes for CWT.
 *
 * - GT_OK: `gt_t1_send_bytes` has the next block, or the end gave up.
 * - GT_STATE: no block is awaited. */
GT_MUST_CHECK int32_t gt_t1_damaged(gt_t1 *t) {
    if (!t) return GT_NULL;
    return galliumtoad_t1_damaged(t);
}

/* Copies the response to the last command: data, and then SW1 SW2, at the front of `response`.
 * `len` gets its length. Hand it to `gt_terminal_responded`, which checks its form. It stays until
 * the next `gt_t1_begin` or `gt_t1_reset`.
 *
 * - GT_OK. Before the first command `len` is 0.
 * - GT_STATE: a command is in progress, or the end gave up.
 * - GT_BUFFER: `room` is less than the response; `len` is its length, `response` is unchanged. */
GT_MUST_CHECK int32_t gt_t1_response(gt_t1 *t, uint8_t *response, size_t room, size_t *len) {
    uint8_t none = 0;
    if (!t || (!response && room) || !len) return GT_NULL;
    return galliumtoad_t1_response(t, response ? response : &none, room, len);
}

/* Returns why the end gave up: `cause` gets GT_TRIES_SPENT, GT_EXTENSIONS_SPENT, GT_ABORTED or
 * GT_TOO_LONG. `outcome` gets what is known of the command: GT_NOT_CARRIED_OUT, GT_UNKNOWN or
 * GT_IN_PART. From then on a command can start only after `gt_t1_reset`, after a reset of the card.
 *
 * An operation may need several commands. If a response before this one was 61XX, the card has
 * carried the operation out (GT_IN_PART): GET RESPONSE fetches, and may be GT_NOT_CARRIED_OUT
 * itself. After any other response GT_NOT_CARRIED_OUT is GT_UNKNOWN of the operation.
 *
 * After S(ABORT request) `gt_t1_send_bytes` gives S(ABORT response). The end gives up with
 * GT_ABORTED at the next reception, whatever that is, `gt_t1_missed` or `gt_t1_damaged`. If the
 * first block of a response is already too long, the outcome of GT_TOO_LONG is GT_UNKNOWN, since no
 * part is kept.
 *
 * - GT_OK.
 * - GT_NOT_FOUND: it has not given up. */
GT_MUST_CHECK int32_t gt_t1_fault(gt_t1 *t, int32_t *cause, int32_t *outcome) {
    if (!t || !cause || !outcome) return GT_NULL;
    return galliumtoad_t1_fault(t, cause, outcome);
}

/* Makes the end as it was after `gt_t1_new`, with the same settings, at any time. Call it when the
 * card was reset. It drops the command in progress, the last response and the fault. Returns
 * GT_OK. */
GT_FUNCTION int32_t gt_t1_reset(gt_t1 *t) {
    if (!t) return GT_NULL;
    return galliumtoad_t1_reset(t);
}

/* Frees the end, at any time. The handle then holds nothing, and may be used again. Does nothing
 * for a handle that holds nothing, or for NULL. */
GT_FUNCTION void gt_t1_free(gt_t1 *t) {
    if (t) galliumtoad_t1_free(t);
}

/* ---- A card (ISO/IEC 7816-4; this project's profile) -----------------------------------------
 *
 * A card holds up to 8 applications, each with up to 64 data objects of up to 8,192 bytes. After
 * `gt_card_new` it is under construction: call `gt_card_app`, `gt_card_object` and
 * `gt_card_finish`. Each application gets its objects before the next one is added.
 *
 * After `gt_card_finish` it is finished: it answers a terminal, character by character
 * (`gt_card_take`, `gt_card_turn`), to SELECT, GET DATA, PUT DATA and GET RESPONSE. The functions
 * after `gt_card_finish` are for this time, also those that return what the card holds.
 * `gt_card_free` is for any time. At a card of your own application some return GT_STATE in more
 * cases: see its section. */

/* Starts a card without applications, in a handle that holds nothing.
 *
 * - GT_OK.
 * - GT_STATE: the handle holds a card, which stays as it was.
 * - GT_MEMORY: the handle still holds nothing.
 *
 * It never returns GT_EMPTY. */
GT_MUST_CHECK int32_t gt_card_new(gt_card *c) {
    if (!c) return GT_NULL;
    return galliumtoad_card_new(c);
}

/* Adds an application, with an identifier of 5 to 16 bytes and no data objects, to a card under
 * construction. After a fault the card is as before.
 *
 * - GT_OK.
 * - GT_STATE: the card is finished.
 * - GT_ARGUMENT: the identifier has another length.
 * - GT_APP_TWICE: an earlier application has it.
 * - GT_TOO_MANY_APPS: there are 8.
 * - GT_MEMORY. */
GT_MUST_CHECK int32_t gt_card_app(gt_card *c, const uint8_t *aid, size_t n) {
    if (!c || (!aid && n)) return GT_NULL;
    return galliumtoad_card_app(c, gt_bytes_(aid), n);
}

/* Adds a data object to the last application of a card under construction. If it has one under this
 * tag, the new value replaces the old. With `locked` other than 0 no command changes it; the last
 * call for a tag counts. After a fault the card is as before.
 *
 * - GT_OK.
 * - GT_STATE: the card is finished.
 * - GT_ARGUMENT: GET DATA can't name the tag. It can name one byte 40 to FE whose bits 5 to 1 are
 *   not all ones. It can name two bytes: 5F, 7F, 9F, BF, DF or FF, and then 01 to 7F.
 * - GT_NO_APP: there is no application yet.
 * - GT_VALUE_TOO_LONG: `n` is above 8,192.
 * - GT_NOT_OBJECTS: the tag is that of a template, and the value is not a list of objects, or has
 *   more than 15 levels. Bit 6 of a template's first tag byte is set, as in 70 and FF01, and not in
 *   5F20 and DF01.
 * - GT_TABLE_FULL: the tag is new, and the application has 64.
 * - GT_MEMORY. */
GT_MUST_CHECK int32_t gt_card_object(gt_card *c, uint32_t tag, const uint8_t *value, size_t n,
                                     int locked) {
    if (!c || (!value && n)) return GT_NULL;
    return galliumtoad_card_object(c, tag, gt_bytes_(value), n, locked != 0);
}

/* Finishes the card: nothing is selected, and it waits for the first character of a header.
 *
 * - GT_OK.
 * - GT_STATE: it was finished before.
 * - GT_MEMORY: the card under construction is unchanged. */
GT_MUST_CHECK int32_t gt_card_finish(gt_card *c) {
    if (!c) return GT_NULL;
    return galliumtoad_card_finish(c);
}

/* Takes a character of the terminal.
 *
 * - GT_OK.
 * - GT_STATE: the card is not finished yet, or speaks T=1. Nothing has changed.
 * - GT_NOT_LISTENING: it has characters to send, or a header or a command waits at a card of your
 *   own. Nothing has changed. */
GT_MUST_CHECK int32_t gt_card_take(gt_card *c, uint8_t byte) {
    if (!c) return GT_NULL;
    return galliumtoad_card_take(c, byte);
}

/* Returns what the card does now.
 *
 * - GT_SENDS: `byte` gets a character for the terminal. Send it now.
 * - GT_OK: the card waits for a character of the terminal, for `gt_card_take`.
 * - GT_COMMAND, GT_HEADER: it waits, at a card of your own alone. See there.
 * - GT_STATE: it is not finished yet, or speaks T=1.
 *
 * Only GT_SENDS changes `byte` and the card. A put is stored when the second status byte has been
 * handed out, not before. */
GT_MUST_CHECK int32_t gt_card_turn(gt_card *c, uint8_t *byte) {
    if (!c || !byte) return GT_NULL;
    return galliumtoad_card_turn(c, byte);
}

/* The next two pass characters by buffers: each repeats one of the two above.
 *
 * Hands out what the card sends now, at most `room` characters, at the front of `bytes`. `n` gets
 * their number. The rest of `bytes` is unchanged.
 *
 * - GT_OK: after them the card waits for a character of the terminal; `n` may be 0.
 * - GT_SENDS: `bytes` is full, with `room` characters, and there may be more: call again. With room
 *   0 it is always this, except GT_STATE. At a card of your own also after a NULL, alone.
 * - GT_COMMAND, GT_HEADER: after them it waits, at a card of your own alone. See there.
 * - GT_STATE: the card is not finished yet, or speaks T=1. `bytes` and `n` are unchanged. */
GT_MUST_CHECK int32_t gt_card_send_bytes(gt_card *c, uint8_t *bytes, size_t room, size_t *n) {
    uint8_t none = 0;
    if (!c || (!bytes && room) || !n) return GT_NULL;
    return galliumtoad_card_send_bytes(c, bytes ? bytes : &none, room, n);
}

/* Takes `n` characters of the terminal, one after another, as many as the card waits for. `taken`
 * gets their number.
 *
 * - GT_OK: all were taken, also if `n` is 0.
 * - GT_NOT_LISTENING: after those taken the card has characters to send, or a header or a command
 *   waits at a card of your own. `taken` is set, and the others were not looked at.
 * - GT_STATE: the card is not finished yet, or speaks T=1. `taken` is unchanged. */
GT_MUST_CHECK int32_t gt_card_receive_bytes(gt_card *c, const uint8_t *bytes, size_t n,
                                            size_t *taken) {
    if (!c || (!bytes && n) || !taken) return GT_NULL;
    return galliumtoad_card_receive_bytes(c, gt_bytes_(bytes), n, taken);
}

/* Resets the card, at any time: a TPDU, a block or a command in progress is dropped, and nothing is
 * selected or pending. The card waits for a header, at T=0. Data objects and the plans that wait
 * stay.
 *
 * - GT_OK.
 * - GT_STATE: it is not finished yet. */
GT_FUNCTION int32_t gt_card_reset(gt_card *c) {
    if (!c) return GT_NULL;
    return galliumtoad_card_reset(c);
}

/* Carries out a whole TPDU (`gt_exchange_tpdu` says which bytes are one), as the firmware of a
 * reader does, under the next of the card's plans. `answer` gets the data from the card, and then
 * SW1 SW2; `len` gets its length, 2 to GT_ANSWER_LIMIT bytes. One buffer may serve for both sides:
 * the TPDU is copied, and the copy wiped. For the time of the call it takes memory for what may
 * come back, at most 256 bytes. PUT DATA takes as many bytes as its value has, and under a new tag
 * those of a longer table of objects.
 *
 * - GT_OK: it was carried out, with any status.
 * - GT_COMMAND, GT_HEADER: it waits, at a card of your own alone. See there.
 * - GT_STATE: the card is not finished yet, speaks T=1, or characters of a TPDU have passed.
 *   Nothing has changed.
 * - GT_NO_TPDU: the bytes are not a whole TPDU. Nothing has changed.
 * - GT_BUFFER: `room` is less than the TPDU may bring: 2 if it has data or four bytes, else 2 and
 *   P3 (00: 256). Nothing has changed.
 * - GT_MEMORY: nothing has changed.
 * - GT_WANTS_DATA, GT_SENDS_DATA: both ends would deadlock, so the card was reset. The plan is used
 *   up, as with GT_OK, and `answer` and `len` are unchanged. */
GT_MUST_CHECK int32_t gt_card_tpdu(gt_card *c, const uint8_t *tpdu, size_t n,
                                   uint8_t *answer, size_t room, size_t *len) {
    return gt_pass_(galliumtoad_card_tpdu, c, tpdu, n, answer, room, len);
}

/* Carries out a whole command (APDU), as a card at T=1 or without contacts does. `response` gets
 * data, and then SW1 SW2; `len` gets its length, 2 to GT_ANSWER_LIMIT bytes. One buffer may serve
 * for both sides: the command is copied, and the copy wiped.
 *
 * A card of data objects carries the command out as TPDUs, to a terminal that wants Le bytes (00:
 * 256). After 6CXX it goes once more, with XX. In case 4 GET RESPONSE fetches. What is left waits,
 * and 61XX announces it. Plans are only for `gt_card_tpdu` and characters.
 *
 * A card of data objects answers 6700 in these cases. Nothing changes then, also no chain and no
 * response that waits. A card of your own does so in the first case; its section has the others:
 *
 * - bytes whose lengths fit none of the four cases, as those of an extended command;
 * - SELECT and PUT DATA, in any class, in case 2;
 * - GET DATA and GET RESPONSE, in any class, in any other case.
 *
 * Results:
 *
 * - GT_OK: the card has answered, with any status.
 * - GT_COMMAND, GT_HEADER: it waits, at a card of your own alone. See there.
 * - GT_STATE: the card is not finished yet, speaks T=1, or characters of a TPDU have passed.
 *   Nothing has changed.
 * - GT_TOO_SHORT, GT_INVALID_INS: the bytes are not a command. Nothing has changed.
 * - GT_BUFFER: `room` is less than 2 and Le (00: 256), or than 2 if there is no Le or the lengths
 *   fit no case. Nothing has changed.
 * - GT_MEMORY: nothing has changed. */
GT_MUST_CHECK int32_t gt_card_apdu(gt_card *c, const uint8_t *apdu, size_t n,
                                   uint8_t *response, size_t room, size_t *len) {
    return gt_pass_(galliumtoad_card_apdu, c, apdu, n, response, room, len);
}

/* The next five calls are the card's end of a line at T=1 (ISO/IEC 7816-3, clause 11). It carries
 * out each command as `gt_card_apdu` does, and answers each block of the terminal with one block:
 *
 * ```
 *   gt_card_t1_begin(&c);
 *   for (;;) {
 *       .. for the bytes received:
 *       gt_card_t1_receive_bytes(&c, bytes, count, &taken);  until that is GT_SENDS
 *       .. or, if the block stops:
 *       gt_card_t1_missed(&c);
 *       .. or, if a character has a wrong parity:
 *       gt_card_t1_damaged(&c);
 *       gt_card_t1_send_bytes(&c, block, sizeof block, &n);  and send the n bytes
 *   }
 * ```
 *
 * The caller keeps the times of the card's answer to reset: `gt_atr.t1`. Blocks have NAD 00 and an
 * LRC. The end takes fields of up to 254 bytes, and sends at most 32 until S(IFS request). It
 * answers S(ABORT request) and S(RESYNCH request) too. S(WTX request) and S(IFS request) of 0 or
 * 255 count as invalid blocks. It sends no request but S(WTX) by gt_card_more_time. The response to
 * other bytes than a short command is 6700, and to an invalid INS 6D00 (profile).
 *
 * The card speaks T=1 up to gt_card_reset. Until then gt_card_plan, gt_session_start and the other
 * calls that send or receive return GT_STATE. Those that show its content work as before.
 *
 * Begins T=1: the end of the line is as after a reset, and has no block to send. What is selected
 * or pending stays, and so do the plans, for T=0 after the next reset. It takes the memory for a
 * command and a response at once.
 *
 * - GT_OK.
 * - GT_STATE: the card is not finished yet, a TPDU is in progress, a header or a command waits, or
 *   the card speaks T=1. Nothing changes.
 * - GT_MEMORY: nothing changes. */
GT_MUST_CHECK int32_t gt_card_t1_begin(gt_card *c) {
    if (!c) return GT_NULL;
    return galliumtoad_card_t1_begin(c);
}

/* Copies the block to send now to `bytes`, and sets `n` to its length, 4 to GT_BLOCK_LIMIT. It
 * stays the same block until one of the next three calls returns GT_SENDS or GT_MEMORY, or
 * gt_card_more_time or gt_card_reset GT_OK.
 *
 * - GT_OK.
 * - GT_DONE: there is no block: none of the next three calls has returned GT_SENDS yet, or the last
 *   returned GT_MEMORY.
 * - GT_COMMAND, GT_HEADER: it waits, at a card of your own alone. See there.
 * - GT_STATE: the card does not speak T=1.
 * - GT_MEMORY: it ran out for a command, at a card of your own alone. The command is not carried
 *   out, and its last block is kept: call again. A block of the terminal drops it.
 * - GT_BUFFER: `room` is less than the block. `n` is its length.
 *
 * `bytes` changes only with GT_OK, `n` with GT_OK and GT_BUFFER. A card of data objects never
 * changes. */
GT_MUST_CHECK int32_t gt_card_t1_send_bytes(gt_card *c, uint8_t *bytes, size_t room, size_t *n) {
    uint8_t none = 0;
    if (!c || (!bytes && room) || !n) return GT_NULL;
    return galliumtoad_card_t1_send_bytes(c, bytes ? bytes : &none, room, n);
}

/* Takes bytes of the terminal up to the end of its block, and sets `taken` to their number. Drop
 * the bytes that are left, and all that arrive before the card's block is sent. A card of data
 * objects carries a command out with the last byte of its last block.
 *
 * - GT_OK: all are taken, and the block is not whole yet.
 * - GT_SENDS: the block is whole, valid or not. `gt_card_t1_send_bytes` has the answer, or says
 *   what waits at a card of your own.
 * - GT_STATE: the card does not speak T=1. Nothing changes.
 * - GT_MEMORY: it ran out for a command, at a card of data objects alone. The command is not
 *   carried out, and there is no answer, as if its last block had been lost: the terminal asks.
 *   `taken` is set. At a card of your own gt_card_t1_send_bytes returns this code. */
GT_MUST_CHECK int32_t gt_card_t1_receive_bytes(gt_card *c, const uint8_t *bytes, size_t n,
                                               size_t *taken) {
    if (!c || (!bytes && n) || !taken) return GT_NULL;
    return galliumtoad_card_t1_receive_bytes(c, gt_bytes_(bytes), n, taken);
}

/* Reports that a block of the terminal stopped for longer than CWT. The received part of the block
 * is dropped.
 *
 * - GT_SENDS: `gt_card_t1_send_bytes` has the answer.
 * - GT_STATE: the card does not speak T=1. Nothing changes. */
GT_MUST_CHECK int32_t gt_card_t1_missed(gt_card *c) {
    if (!c) return GT_NULL;
    return galliumtoad_card_t1_missed(c);
}

/* Reports that a character of the terminal's block had a wrong parity: as `gt_card_t1_missed`, but
 * the R-block says so. After gt_card_more_time the answer to either is S(WTX request) again. The
 * other bytes of the block still come: before this call, drop all until none comes for CWT.
 *
 * - GT_SENDS: `gt_card_t1_send_bytes` has the answer.
 * - GT_STATE: the card does not speak T=1. Nothing changes. */
GT_MUST_CHECK int32_t gt_card_t1_damaged(gt_card *c) {
    if (!c) return GT_NULL;
    return galliumtoad_card_t1_damaged(c);
}

/* Plans how the card answers one more of the TPDUs to come, in turn. `steps` is a string of
 * letters, in any order and number, carried out from left to right:
 *
 * - n: the card sends a NULL (60);
 * - o: it sends INS xor FF, and one data byte moves;
 * - a: it sends INS, and all data bytes that are left move.
 *
 * o and a are skipped if no data bytes are left, as in a TPDU without data; n is not. After the
 * last letter all that are left move. If the card refuses the header, none do. `cut`, 1 to 256, is
 * the most bytes that a status 61XX announces (256 as 6100). It shows only if a response waits, and
 * 256 sets no limit. Without a plan the card answers as with "" and 256.
 *
 * - GT_OK.
 * - GT_STATE: the card is not finished yet, or speaks T=1. Nothing has changed.
 * - GT_ARGUMENT: another letter, or another cut. Nothing has changed.
 * - GT_PLANS: GT_PLANS_LIMIT plans wait already. Nothing has changed.
 * - GT_MEMORY: nothing has changed. */
GT_MUST_CHECK int32_t gt_card_plan(gt_card *c, const char *steps, uint16_t cut) {
    size_t n = 0;
    if (!c || !steps) return GT_NULL;
    while (steps[n]) n++;
    return galliumtoad_card_plan(c, steps, n, cut);
}

/* Copies the identifier of the selected application to the front of `aid`; `n` gets its length, 5
 * to 16 bytes.
 *
 * - GT_OK.
 * - GT_STATE: the card is not finished yet.
 * - GT_NOT_FOUND: none is selected. */
GT_MUST_CHECK int32_t gt_card_selected(gt_card *c, uint8_t aid[GT_AID_LIMIT], size_t *n) {
    if (!c || !aid || !n) return GT_NULL;
    return galliumtoad_card_selected(c, aid, GT_AID_LIMIT, n);
}

/* Copies the identifier of an application, counted from 0 in the order of building; `aid` and `n`
 * as above.
 *
 * - GT_OK.
 * - GT_STATE: the card is not finished yet.
 * - GT_NOT_FOUND: `app` is past the last. */
GT_MUST_CHECK int32_t gt_card_app_at(gt_card *c, size_t app, uint8_t aid[GT_AID_LIMIT],
                                     size_t *n) {
    if (!c || !aid || !n) return GT_NULL;
    return galliumtoad_card_app_at(c, app, aid, GT_AID_LIMIT, n);
}

/* Copies a data object of an application. Both count from 0: the applications in the order of
 * building, the objects in the order of first storing. It gives `tag`, `locked` (1 or 0),
 * `value`, and `len`, the number of the value's bytes.
 *
 * - GT_OK: all of it.
 * - GT_STATE: the card is not finished yet.
 * - GT_NOT_FOUND: `app` or `entry` is past the last.
 * - GT_BUFFER: `room` is less than the value, as if you ask for its size with room 0. `tag`,
 *   `locked` and `len` are the object's, `value` is unchanged. */
GT_MUST_CHECK int32_t gt_card_entry_at(gt_card *c, size_t app, size_t entry, uint32_t *tag,
                                       int32_t *locked, uint8_t *value, size_t room, size_t *len) {
    uint8_t none = 0;
    if (!c || !tag || !locked || (!value && room) || !len) return GT_NULL;
    return galliumtoad_card_entry_at(c, app, entry, tag, locked, value ? value : &none, room, len);
}

/* Frees the card, at any time. The handle then holds nothing, and may be used again. Does nothing
 * for a handle that holds nothing, or for NULL. */
GT_FUNCTION void gt_card_free(gt_card *c) {
    if (c) galliumtoad_card_free(c);
}

/* ---- A card of your own application ----------------------------------------------------------
 *
 * You write what a command does; the card does the rest. It carries your commands over T=0 by
 * characters and buffers, as whole TPDUs, and as whole commands. You get each once; a test shows
 * that, no proof. One that was dropped and is sent again is another one. Make the card with
 * `gt_card_own`. These calls above work on it: gt_card_take, _turn, _send_bytes, _receive_bytes,
 * _tpdu, _apdu, _plan, _reset and _free, and all of T=1. The others return GT_STATE, also
 * gt_session_start.
 *
 * gt_card_turn, gt_card_send_bytes, gt_card_tpdu, gt_card_apdu and gt_card_t1_send_bytes return
 * GT_COMMAND if a command waits for its response. Then nothing changes, except `n` of
 * gt_card_send_bytes and the bytes that it counts. A TPDU, a command or a block that came whole is
 * copied, and waits. The order:
 *
 *   the card returned   then call                          and then
 *   GT_HEADER           gt_card_command for the header     gt_card_direction; the same call again
 *   GT_COMMAND          gt_card_command for the command    gt_card_respond; the same call again
 *
 * gt_card_more_time may come in place of gt_card_respond, except for a TPDU or command that came
 * whole. The same call again then has one NULL, byte 60, and at T=1 S(WTX request).
 *
 * GT_HEADER is only for a card without directions. GT_COMMAND may follow it. The same call again is
 * gt_card_tpdu or gt_card_apdu with NULL and 0 in place of the bytes.
 *
 * At T=1 a command waits once gt_card_t1_send_bytes has returned GT_HEADER or GT_COMMAND. What
 * gt_card_command gives is all of it: bytes beyond GT_APDU_LIMIT get 6700 alone. Any block of the
 * terminal, even an invalid one, drops it and what was answered for it. While S(WTX request)
 * is in progress only S(ABORT request) and S(RESYNCH request) drop the command. After the response
 * to S(WTX request) gt_card_t1_send_bytes returns GT_HEADER or GT_COMMAND again. A command that was
 * dropped before the answer may come again in another block: you get it once more, and
 * gt_card_settled is 0 if it had a response, which did not go out.
 *
 * No command waits in these cases, and the card answers alone:
 *
 * - GET RESPONSE, INS C0 in any class: it fetches the rest of a response that 61XX announces. If
 *   nothing waits, it is 6985.
 * - The same header with the P3 that 6CXX names: the response is there already.
 * - INS 6X and 9X: 6D00; gt_card_apdu returns GT_INVALID_INS.
 *
 * At most P3 bytes of a response go out (00: 256). The card answers 61XX for the rest, and your
 * status follows the last byte. It answers 6CXX if your response is shorter than P3, but not empty.
 * Any other command drops what waits. Pieces of a chain (CLA 10) arrive one by one.
 *
 * A command takes effect when it settles: with SW2 of the TPDU that carried it out, also if that is
 * 61XX or 6CXX. A reset before SW2 drops it: undo what it did. A whole command settles when it is
 * carried out, which is when gt_card_apdu returns GT_OK, and at T=1 when gt_card_t1_send_bytes has
 * the block that answers it.
 *
 * A whole command reaches you as T=0 shows it, so answers are alike: without Le if data go to the
 * card, even none, and else with Le and without data. That Le is 256 if the command has none. At
 * most Le bytes come back, none without Le, and 61XX announces the rest; there is no 6CXX. The card
 * answers 6700 alone to data where none go to the card, and to Le without data where some do. GET
 * RESPONSE may have data, which the card drops.
 *
 * Misuse gets these codes, and changes nothing:
 *
 * - gt_card_own: the handle holds a card: GT_STATE.
 * - gt_card_command: nothing waits: GT_STATE.
 * - gt_card_direction: no header waits: GT_STATE.
 * - gt_card_respond: no command waits, as before the first one, after the response to it, and after
 *   a reset: GT_STATE. At T=1 also after the next block, as S(ABORT) or S(RESYNCH). Another
 *   response than one may give: GT_ARGUMENT.
 * - gt_card_more_time: no command waits by characters, by buffers or at T=1, or it has its
 *   response: GT_STATE. A multiple of 0: GT_ARGUMENT.
 * - gt_card_take and gt_card_receive_bytes, while one waits: GT_NOT_LISTENING.
 * - gt_card_tpdu and gt_card_apdu with bytes, while one waits; or without bytes, while none of that
 *   call waits: GT_STATE, and with nothing that waits GT_NO_TPDU and GT_TOO_SHORT. While one of
 *   theirs waits, the calls by characters and buffers: GT_STATE. gt_card_reset drops it.
 * - The calls of this section on a card of data objects or a session: GT_STATE. */

/* The directions of the instructions of ISO/IEC 7816-4, 7816-8, 7816-9 and of EMV, by INS alone:
 * `const uint8_t directions[32] = GT_ISO_DIRECTIONS;`. A SIM of class A0 has others, for INS 12. */
#define GT_ISO_DIRECTIONS { \
    0x10, 0xD0, 0x55, 0x41, 0x57, 0x15, 0x00, 0x00, 0x50, 0x00, 0x00, \
    0x00, 0x00, 0x00, 0x00, 0x00, 0xC4, 0x01, 0x00, 0x00, 0x17, 0x41, \
    0x0A, 0x00, 0x0C, 0x08, 0xC7, 0x3C, 0x55, 0x01, 0x00, 0x40 }

/* Makes a card of your own application, in a handle that holds nothing. It listens at T=0, and
 * nothing waits.
 *
 * `directions` are 32 bytes, which are copied. Bit INS mod 8 of byte INS/8, the lowest bit first,
 * is set if data go to the card: at T=0 the header does not say (ISO/IEC 7816-3, 10.3.1). If
 * `directions` is NULL, each header that the card does not answer alone waits for its direction:
 * GT_HEADER.
 *
 * - GT_OK.
 * - GT_STATE: the handle holds a card, which stays as it was.
 * - GT_MEMORY: the handle still holds nothing.
 *
 * It never returns GT_EMPTY. */
GT_MUST_CHECK int32_t gt_card_own(gt_card *c, const uint8_t directions[32]) {
    if (!c) return GT_NULL;
    return galliumtoad_card_own(c, gt_bytes_(directions), directions ? 32 : 0);
}

/* Copies the command that waits. Of a header that waits it gives CLA to P2; `le` and `size` are 0.
 *
 * - GT_OK: the next call gives the same.
 * - GT_STATE: nothing waits, the NULL or S(WTX request) of gt_card_more_time is in progress,
 *   or the card is not of your own. `command` is unchanged. */
GT_MUST_CHECK int32_t gt_card_command(gt_card *c, gt_command *command) {
    if (!c || !command) return GT_NULL;
    return galliumtoad_card_command(c, command);
}

/* Answers a header that waits: with `to_card` other than 0 data of the terminal follow it, if P3
 * names some. The answer is for this command alone.
 *
 * - GT_OK.
 * - GT_STATE: no header waits, or the card is not of your own. */
GT_MUST_CHECK int32_t gt_card_direction(gt_card *c, int to_card) {
    if (!c) return GT_NULL;
    return galliumtoad_card_direction(c, to_card != 0);
}

/* Answers the command that waits: `n` bytes of data, and `status`. They are copied. If you can't
 * carry the command out, answer 6581 or another status.
 *
 * The command gets this response. For a TPDU what is proved also allows 6581 alone, and a test
 * refuses that. After a reset, and at T=1 after a block, nothing of the response goes out.
 *
 * - GT_OK: it is taken. Call again what returned GT_COMMAND: a whole TPDU or command with NULL, 0.
 * - GT_STATE: no command waits, the NULL or S(WTX request) of gt_card_more_time is in progress, or
 *   the card is not of your own.
 * - GT_ARGUMENT: `n` is above GT_OWN_LIMIT, or `status` is 61XX or 6CXX, which are the card's own,
 *   or no status word (6X except 60, or 9X, and any byte). The command still waits.
 * - GT_MEMORY: the command still waits. */
GT_MUST_CHECK int32_t gt_card_respond(gt_card *c, const uint8_t *data, size_t n,
                                      uint16_t status) {
    if (!c || (!data && n)) return GT_NULL;
    return galliumtoad_card_respond(c, gt_bytes_(data), n, status);
}

/* Asks the terminal for more time for the command that waits.
 *
 * By characters gt_card_turn or gt_card_send_bytes has one NULL, byte 60: `n` is 1, and the code
 * GT_SENDS. The call after it returns GT_COMMAND again. Until the NULL is out, any other call on
 * what waits, or to take something, returns GT_STATE. A reset drops the NULL with the command.
 *
 * At T=1 gt_card_t1_send_bytes has the S(WTX request). After the response to it that call returns
 * GT_COMMAND again, or GT_HEADER. `multiple`, 1 to 255, is how many times BWT the terminal waits
 * for the next block; at T=0 it has no effect.
 *
 * - GT_OK: the command waits on. gt_card_respond returns GT_STATE until the NULL is out, and at T=1
 *   until GT_COMMAND or GT_HEADER comes again.
 * - GT_STATE: no command waits by characters, by buffers or at T=1, it has its response, or the
 *   card is not of your own.
 * - GT_ARGUMENT: `multiple` is 0. The command still waits. */
GT_MUST_CHECK int32_t gt_card_more_time(gt_card *c, uint8_t multiple) {
    if (!c) return GT_NULL;
    return galliumtoad_card_more_time(c, multiple);
}

/* Returns whether the last command that got a response has settled. Compare with == 1.
 *
 * - 1: it has, or there was none.
 * - 0: it has not. After a reset, or once a block at T=1 has dropped it, it never will: undo it.
 * - GT_STATE: the card is not of your own. */
GT_MUST_CHECK int32_t gt_card_settled(gt_card *c) {
    if (!c) return GT_NULL;
    return galliumtoad_card_settled(c);
}

/* ---- Commands of a card here, and what it answers --------------------------------------------
 *
 * - 00 A4 04 00 Lc AID [00]: SELECT. The data that wait are 6F with 84 with the AID.
 * - 00 CA P1 P2 Le: GET DATA of the tag P1-P2 (00 50 for 50): tag, length and value.
 * - 00 DA P1 P2 [Lc value]: PUT DATA. CLA is 10 in all pieces of a chain except the last.
 * - 00 C0 00 00 Le: GET RESPONSE. An exchange sends it by itself.
 *
 * After all except 9000 and 61XX no value is stored, what was selected stays selected, and a chain
 * is dropped. So is a response that waits, unless GET RESPONSE itself gets 6CXX. The 6700 that
 * gt_card_apdu lists drops neither. If more than one holds, the answer is the first of 6883, 6E00,
 * 6D00, 6884, 6A86, 6985, 6982, 6A88, 6700, 6CXX. The others come after the data.
 *
 * - 9000: it is done, and all data were received.
 * - 61XX: it is done, and XX more bytes can be had with GET RESPONSE (00: 256). GET DATA with an Le
 *   below what there is gets it too, and an exchange with that Le then ends.
 * - 6581: PUT DATA: memory ran out at the card.
 * - 6700: PUT DATA: a value above 8,192 bytes; SELECT: an identifier not of 5 to 16 bytes.
 * - 6883: a chain is pending, and this command is not its next one.
 * - 6884: CLA begins a chain, and INS is not PUT DATA.
 * - 6982: PUT DATA: the data object is locked.
 * - 6985: GET DATA, PUT DATA: nothing is selected; GET RESPONSE: nothing waits.
 * - 6A80: PUT DATA: the tag is that of a template, and the value is not a list of objects, or has
 *   more than 15 levels.
 * - 6A82: SELECT: there is no such application.
 * - 6A84: PUT DATA: the tag is new, and the application has 64 data objects.
 * - 6A86: P1-P2 are not the command's, or name no tag.
 * - 6A88: GET DATA: the selected application has no such data object.
 * - 6CXX: there are fewer bytes than asked for (Le 00 asks for 256): XX. An exchange asks again for
 *   these, by itself.
 * - 6D00: INS is not A4, CA, DA or C0.
 * - 6E00: CLA is not 00 or 10, nor 80 of a GET DATA.
 *
 * In a session `gt_session_select` answers 9000 or 6A82, `gt_session_get` 9000, 6985 or 6A88, and
 * `gt_session_put` 9000, 6581, 6700, 6982, 6985, 6A80 or 6A84. */

/* ---- A session: a terminal and a card, joined by a line that delivers every character --------
 *
 * A call of `gt_session_select`, `_get`, `_put` or `_send` carries out an operation to its answer
 * before it returns. Operations need memory at the terminal: if that runs out they return
 * GT_MEMORY, and no character was sent. If it runs out at the card, as for a longer value, the
 * card's own answer says so: status 6581. */

/* Takes a finished card out of its handle, which then holds nothing, resets it, and starts a
 * session with it, in a session's handle that holds nothing. Plans of the card are dropped. Nobody
 * listens yet: see `gt_session_listen`.
 *
 * - GT_OK.
 * - GT_STATE: `s` holds a session, or the card is not finished yet, speaks T=1 or is one of your
 *   own application. Both handles stay as they were.
 * - GT_EMPTY: `c` holds nothing. Both handles stay as they were. */
GT_MUST_CHECK int32_t gt_session_start(gt_session *s, gt_card *c) {
    if (!s || !c) return GT_NULL;
    return galliumtoad_session_start(s, c);
}

/* Returns whether an operation other than `gt_session_send` can start: 1, or 0 while a chain that
 * it started is pending at the card. Its last piece, a command that the card refuses or
 * `gt_session_reset` ends it. Compare with == 1: GT_EMPTY is not 0 either. */
GT_MUST_CHECK int32_t gt_session_idle(gt_session *s) {
    if (!s) return GT_NULL;
    return galliumtoad_session_idle(s);
}

/* Adds a plan as `gt_card_plan` takes it, for one more TPDU of the next operation that is carried
 * out. That operation drops the plans that it leaves, and so does `gt_session_end`.
 *
 * If it ends with 9000, a select is two TPDUs, SELECT and GET RESPONSE, and a put one for each 255
 * bytes, at least one. A get of up to 255 bytes (tag, length and value) is two: the first gets 6CXX
 * and moves no data, the second brings them all. A longer one is a TPDU for each 256 bytes or less
 * that are left. A select and a longer get are more TPDUs if a `cut` is smaller. So to have the
 * bytes of a short get come singly, plan "" first, and then an o for each byte of tag, length and
 * value: "oooooo" for a value of 3 bytes under 5F20.
 *
 * - GT_OK.
 * - GT_ARGUMENT: another letter, or another cut.
 * - GT_PLANS: GT_PLANS_LIMIT plans wait already.
 * - GT_MEMORY. */
GT_MUST_CHECK int32_t gt_session_plan(gt_session *s, const char *steps, uint16_t cut) {
    size_t n = 0;
    if (!s || !steps) return GT_NULL;
    while (steps[n]) n++;
    return galliumtoad_session_plan(s, steps, n, cut);
}

/* Selects an application by its identifier of 5 to 16 bytes (SELECT). `status` gets the card's
 * status word (0x9000), `len` the number of data bytes, and `data` these: the template 6F with the
 * identifier, at most 20 bytes. Any status is an answer, also 0x6A82 (no such application), after
 * which the application before it stays selected. If nothing is sent, plans and the last answer
 * stay.
 *
 * - GT_OK: it was carried out.
 * - GT_BUFFER: it was carried out, and `room` is less than the data. `status` and `len` are the
 *   answer's, `data` is unchanged, and `gt_session_answer` gives the data.
 * - GT_ARGUMENT: the identifier has another length. Nothing was sent.
 * - GT_BUSY: a chain is pending. Nothing was sent.
 * - GT_MEMORY: nothing was sent. */
GT_MUST_CHECK int32_t gt_session_select(gt_session *s, const uint8_t *aid, size_t n,
                                        uint16_t *status, uint8_t *data, size_t room, size_t *len) {
    uint8_t none = 0;
    int32_t code;
    if (!s || (!aid && n) || !status || (!data && room) || !len) return GT_NULL;
    code = galliumtoad_session_select(s, gt_bytes_(aid), n);
    if (code < 0) return code;
    return galliumtoad_session_answer(s, status, data ? data : &none, room, len);
}

/* Reads a data object of the selected application (GET DATA): `data` gets its tag, its length in
 * the shortest form, and its value, at most GT_OBJECT_LIMIT bytes. Results are those of
 * `gt_session_select`, except GT_ARGUMENT: GET DATA can't name the tag (see `gt_card_object`). */
GT_MUST_CHECK int32_t gt_session_get(gt_session *s, uint32_t tag, uint16_t *status,
                                     uint8_t *data, size_t room, size_t *len) {
    uint8_t none = 0;
    int32_t code;
    if (!s || !status || (!data && room) || !len) return GT_NULL;
    code = galliumtoad_session_get(s, tag);
    if (code < 0) return code;
    return galliumtoad_session_answer(s, status, data ? data : &none, room, len);
}

/* Stores a value under a tag of the selected application (PUT DATA), in a chain of commands with up
 * to 255 bytes of it each. `status` gets the card's answer: 0x9000, or why the value is not stored,
 * as 0x6982 (locked) or 0x6700 (above 8,192 bytes). There are no data, and no chain is pending
 * then.
 *
 * - GT_OK: it was carried out.
 * - GT_ARGUMENT: PUT DATA can't name the tag (see `gt_card_object`). Nothing was sent.
 * - GT_BUSY: a chain is pending. Nothing was sent.
 * - GT_MEMORY: nothing was sent. */
GT_MUST_CHECK int32_t gt_session_put(gt_session *s, uint32_t tag, const uint8_t *value, size_t n,
                                     uint16_t *status) {
    uint8_t none = 0;
    size_t len = 0;
    int32_t code;
    if (!s || (!value && n) || !status) return GT_NULL;
    code = galliumtoad_session_put(s, tag, gt_bytes_(value), n);
    if (code < 0) return code;
    code = galliumtoad_session_answer(s, status, &none, 0, &len);
    return code == GT_BUFFER ? GT_OK : code;
}

/* Sends any one command (as `gt_exchange_start` takes it). It may start or continue a chain, and it
 * never returns GT_BUSY. The answer is as that of `gt_session_select`, with as much of the data as
 * Le asks for (see `gt_exchange_start`).
 *
 * - GT_OK, GT_BUFFER: it was carried out, as there.
 * - GT_TOO_SHORT, GT_BAD_LENGTH, GT_INVALID_INS: the bytes are not a command. Nothing was sent.
 * - GT_ARGUMENT: terminal and card would not agree on which way data move, which no header says
 *   over T=0. That is a SELECT or a PUT DATA (INS A4, DA) without data and with Le, and a GET DATA
 *   or a GET RESPONSE (CA, C0) of any other form than that. Nothing was sent.
 * - GT_MEMORY: nothing was sent. */
GT_MUST_CHECK int32_t gt_session_send(gt_session *s, const uint8_t *command, size_t n,
                                      uint16_t *status, uint8_t *data, size_t room, size_t *len) {
    uint8_t none = 0;
    int32_t code;
    if (!s || (!command && n) || !status || (!data && room) || !len) return GT_NULL;
    code = galliumtoad_session_send(s, gt_bytes_(command), n);
    if (code < 0) return code;
    return galliumtoad_session_answer(s, status, data ? data : &none, room, len);
}

/* Copies the answer of the last operation that was carried out, or of the last command of
 * `gt_session_send`, again. It stays until the next one, also over a reset.
 *
 * - GT_OK: all of it.
 * - GT_BUFFER: `room` is less than the data. `status` and `len` are the answer's, `data` is
 *   unchanged.
 * - GT_NOT_FOUND: there was none. */
GT_MUST_CHECK int32_t gt_session_answer(gt_session *s, uint16_t *status,
                                        uint8_t *data, size_t room, size_t *len) {
    uint8_t none = 0;
    if (!s || !status || (!data && room) || !len) return GT_NULL;
    return galliumtoad_session_answer(s, status, data ? data : &none, room, len);
}

/* Notes the characters of each operation from now on, for `gt_session_heard`, until the session
 * ends. It drops the characters noted before. Noting takes memory and time in each operation. So
 * call this right after `gt_session_start`, and only if you want them. Returns GT_OK. */
GT_MUST_CHECK int32_t gt_session_listen(gt_session *s) {
    if (!s) return GT_NULL;
    return galliumtoad_session_listen(s);
}

/* Copies the characters of the last operation that was carried out, from its first to its last;
 * none before there was one after `gt_session_listen`. An operation that was not carried out
 * (GT_MEMORY, GT_BUSY ..) leaves them unchanged. `count` gets their number. If you ask for that
 * alone, with room 0, the result is GT_BUFFER, or GT_OK if it is 0.
 *
 * - GT_OK: all of them are in `line`. Nothing else changes `line`.
 * - GT_STATE: nobody listens (`gt_session_listen`).
 * - GT_MEMORY: memory ran out in the operation, so not all were noted. `count` is unchanged.
 * - GT_BUFFER: `room` is less than their number; `count` is that. */
GT_MUST_CHECK int32_t gt_session_heard(gt_session *s, gt_character *line, size_t room,
                                       size_t *count) {
    gt_character none = { 0, 0 };
    if (!s || (!line && room) || !count) return GT_NULL;
    return galliumtoad_session_heard(s, line ? line : &none, room, count);
}

/* Resets the card: nothing is selected or pending. Data objects, plans, the last answer and the
 * noted characters stay, and noting continues. Returns GT_OK. */
GT_FUNCTION int32_t gt_session_reset(gt_session *s) {
    if (!s) return GT_NULL;
    return galliumtoad_session_reset(s);
}

/* The next three are as `gt_card_selected`, `gt_card_app_at` and `gt_card_entry_at`, of the
 * session's card, and never GT_STATE. */
GT_MUST_CHECK int32_t gt_session_selected(gt_session *s, uint8_t aid[GT_AID_LIMIT],
                                          size_t *n) {
    if (!s || !aid || !n) return GT_NULL;
    return galliumtoad_session_selected(s, aid, GT_AID_LIMIT, n);
}

GT_MUST_CHECK int32_t gt_session_app_at(gt_session *s, size_t app, uint8_t aid[GT_AID_LIMIT],
                                        size_t *n) {
    if (!s || !aid || !n) return GT_NULL;
    return galliumtoad_session_app_at(s, app, aid, GT_AID_LIMIT, n);
}

GT_MUST_CHECK int32_t gt_session_entry_at(gt_session *s, size_t app, size_t entry,
                                          uint32_t *tag, int32_t *locked,
                                          uint8_t *value, size_t room, size_t *len) {
    uint8_t none = 0;
    if (!s || !tag || !locked || (!value && room) || !len) return GT_NULL;
    return galliumtoad_session_entry_at(s, app, entry, tag, locked, value ? value : &none, room,
                                        len);
}

/* Ends a session, and moves its card, reset, into a card's handle that holds nothing. The session's
 * handle then holds nothing. Nothing is selected: a next session selects again. Data objects stay.
 * Plans that are left, the last answer and the noted characters are dropped.
 *
 * - GT_OK.
 * - GT_STATE: `c` holds a card. Both handles stay as they were.
 * - GT_EMPTY: `s` holds nothing. Both handles stay as they were. */
GT_MUST_CHECK int32_t gt_session_end(gt_session *s, gt_card *c) {
    if (!s || !c) return GT_NULL;
    return galliumtoad_session_end(s, c);
}

/* Frees the session and its card, at any time. The handle then holds nothing, and may be used
 * again. Does nothing for a handle that holds nothing, or for NULL. */
GT_FUNCTION void gt_session_free(gt_session *s) {
    if (s) galliumtoad_session_free(s);
}

#ifdef __cplusplus
}
#endif
#endif
