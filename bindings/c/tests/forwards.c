/* Tests what each function of the header passes to the archive. Stand-ins replace the archive's
 * functions: they note their arguments, and return what the test sets. They never get NULL, and
 * are not called if the caller's pointer is NULL. `forwards.py` writes them and their calls from
 * the header's declarations. */
#include "galliumtoad.h"
#include "check.h"

enum { MOST = 8, CALLS = 2, LETTERS = 65536 };

typedef struct {
    const char *name;
    size_t count;
    uintptr_t what[MOST];
} handed;

static handed notes[CALLS];
static size_t calls;
static int32_t told[CALLS];

static int32_t note(const char *name, const uintptr_t *what, size_t count) {
    const size_t at = calls < CALLS ? calls : CALLS - 1;
    calls++;
    notes[at].name = name;
    notes[at].count = count;
    memcpy(notes[at].what, what, count * sizeof *what);
    return told[at];
}

#define P(value) ((uintptr_t)(value))
#define NOTED(...) \
    const uintptr_t what_[] = { __VA_ARGS__ }; \
    const int32_t told_ = note(__func__, what_, sizeof what_ / sizeof *what_)
#define NOTE(...) NOTED(__VA_ARGS__); return told_
#define NOTE_ALONE(...) NOTED(__VA_ARGS__); (void)told_

/* The input of a stand-in that clears its output first, and reads its input after that. */
static uint8_t seen[1024];
#define READ(bytes, n, answer, room) do { \
        memset(answer, 0, room); \
        memset(seen, 0, sizeof seen); \
        memcpy(seen, bytes, n < sizeof seen ? n : sizeof seen); \
    } while (0)

static uint32_t library;
uint32_t galliumtoad_version(void) {
    return library;
}

/* Each pointer parameter points to its own place here. Only stand-ins write to them. */
static uint64_t places[MOST][64];
#define AT(parameter) ((void *)places[parameter])

static char letters[LETTERS + 1];
static const char *text(size_t n) {
    return letters + LETTERS - n;
}

/* Any pointer except NULL: what the archive gets if the caller passes NULL and a count of 0. */
#define ANY UINTPTR_MAX

static void is_handed(int line, size_t call, const char *name, const uintptr_t *want, size_t n) {
    const handed *at = &notes[call];
    size_t i;
    check_number(__FILE__, line, name, strcmp(at->name, name), 0);
    check_number(__FILE__, line, "arguments", (long long)at->count, (long long)n);
    for (i = 0; i < n && i < at->count; i++) {
        if (want[i] == ANY)
            check_number(__FILE__, line, "NULL", at->what[i] == 0, 0);
        else
            check_number(__FILE__, line, "an argument", (long long)at->what[i],
                         (long long)want[i]);
    }
}
#define IS_HANDED(call, name, ...) do { \
        const uintptr_t want_[] = { __VA_ARGS__ }; \
        is_handed(__LINE__, call, "galliumtoad_" name, want_, sizeof want_ / sizeof *want_); \
    } while (0)

/* The call passes these to the archive's function, and returns what that returns. */
#define HANDS(call, name, ...) do { \
        static const int32_t answers_[] = { GT_OK, GT_SENDS, GT_BUFFER, GT_EMPTY }; \
        size_t i_; \
        for (i_ = 0; i_ < 4; i_++) { \
            calls = 0; \
            told[0] = answers_[i_]; \
            CHECK(call, answers_[i_]); \
            CHECK(calls, 1); \
            IS_HANDED(0, name, __VA_ARGS__); \
        } \
    } while (0)

/* The call of an operation passes these on. If that returns GT_OK, it asks for the answer, and
 * returns the code of that; `of_room` is its result if that is GT_BUFFER. */
#define OPERATES(call, name, of_room, ...) do { \
        static const int32_t faults_[] = { GT_NULL, GT_EMPTY, GT_BUFFER, GT_NOT_FOUND }; \
        size_t i_; \
        for (i_ = 0; i_ < 4; i_++) { \
            calls = 0; \
            told[0] = faults_[i_]; \
            CHECK(call, faults_[i_]); \
            CHECK(calls, 1); \
            IS_HANDED(0, name, __VA_ARGS__); \
            calls = 0; \
            told[0] = GT_OK; \
            told[1] = faults_[i_]; \
            CHECK(call, faults_[i_] == GT_BUFFER ? of_room : faults_[i_]); \
        } \
        calls = 0; \
        told[1] = GT_OK; \
        CHECK(call, GT_OK); \
        CHECK(calls, 2); \
        IS_HANDED(0, name, __VA_ARGS__); \
    } while (0)
#define ANSWERS(...) IS_HANDED(1, "session_answer", __VA_ARGS__)

#define REFUSES(call) do { \
        calls = 0; \
        CHECK(call, GT_NULL); \
        CHECK(calls, 0); \
    } while (0)

#define FREES(call, type, name) do { \
        calls = 0; \
        call((type)AT(0)); \
        IS_HANDED(0, name, P(AT(0))); \
        CHECK(calls, 1); \
        calls = 0; \
        call(NULL); \
        CHECK(calls, 0); \
    } while (0)

/* The function passes on a copy, so that a stand-in that writes first still reads its input, even
 * if one buffer serves as both. If `n` exceeds `most`, fewer bytes may be passed on, but more than
 * `most`. */
typedef int32_t copying(gt_card *, const uint8_t *, size_t, uint8_t *, size_t, size_t *);
static void copies_from(copying *call, const char *name, size_t most, const uint8_t *bytes,
                        size_t n, uint8_t *answer, size_t room) {
    static uint8_t nothing[501];
    uintptr_t want[] = { P(AT(0)), ANY, n, answer ? P(answer) : ANY, room, P(AT(5)) };
    uint8_t given[500];
    size_t copied;
    memcpy(given, bytes ? bytes : nothing, n);
    calls = 0;
    told[0] = GT_BUFFER;
    CHECK(call((gt_card *)AT(0), bytes, n, answer, room, (size_t *)AT(5)), GT_BUFFER);
    CHECK(calls, 1);
    copied = notes[0].what[2];
    CHECK(n <= most ? copied == n : copied > most && copied <= n, 1);
    want[2] = copied;
    is_handed(__LINE__, 0, name, want, 6);
    CHECK(notes[0].what[1] == P(bytes), 0);
    CHECK_BYTES(seen, given, copied);
    CHECK_BYTES(seen + copied, nothing, sizeof nothing - copied);
}

static inline void copies(copying *call, const char *name, size_t most) {
    const size_t sizes[] = { 0, 1, 5, most, most + 1, most + 2, 500 };
    static uint8_t bytes[500], other[7];
    size_t i, at;
    for (i = 0; i < sizeof sizes / sizeof *sizes; i++) {
        for (at = 0; at < sizeof bytes; at++) bytes[at] = (uint8_t)(at % 251 + 1);
        copies_from(call, name, most, bytes, sizes[i], other, sizeof other);
        copies_from(call, name, most, bytes, sizes[i], bytes, 258);
    }
    copies_from(call, name, most, NULL, 0, NULL, 0);
}

#include "forwards.h"

#ifndef STAND_INS_ALONE
/* A version fits if its major and minor numbers are those of the header. */
static void of_versions(void) {
    const uint32_t others[] = { 0, 0xFF, 0x000200, 0x0002FF, 0x000400, 0x010300, 0x010000,
                                0x020001, 0xFF0300, 0x00FF00, 0x1000200, UINT32_MAX };
    size_t i;
    for (library = 0x000300; library < 0x000400; library++) {
        CHECK(gt_version(), library);
        CHECK(gt_version_fits(), 1);
    }
    for (i = 0; i < sizeof others / sizeof *others; i++) {
        library = others[i];
        CHECK(gt_version(), others[i]);
        CHECK(gt_version_fits(), 0);
    }
}

int main(void) {
    static uint64_t untouched[MOST][64];
    memset(letters, 'o', LETTERS);
    of_each_function();
    of_versions();
    CHECK_BYTES(places, untouched, sizeof places);
    return check_result("forwards");
}
#endif
