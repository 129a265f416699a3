/* CHECK and its count, for all tests in C. It prints each value that is wrong. */
#ifndef CHECK_H
#define CHECK_H

#include <stdio.h>
#include <string.h>

static int passed, failed;

static inline void check_number(const char *file, int line, const char *what, long long got,
                                long long want) {
    if (got == want) {
        passed++;
        return;
    }
    failed++;
    printf("%s:%d: %s = %lld, not %lld\n", file, line, what, got, want);
}

static inline int check_result(const char *name) {
    printf("%s: %d passed, %d failed\n", name, passed, failed);
    return failed != 0;
}

#define CHECK(what, want) \
    check_number(__FILE__, __LINE__, #what, (long long)(what), (long long)(want))
#define CHECK_BYTES(got, want, n) CHECK(memcmp(got, want, n), 0)

#endif
