/* Refuses the program memory, reads and writes. checks/program loads it before the C library. Each
 * limit is a variable of the environment; without the variable there is no limit:
 *
 * - ROOM: the most bytes of memory in use at one time
 * - LACKS: the number of the allocation that is refused, from 1
 * - TAKES: the most bytes that a read of standard input returns
 * - GIVES: the number of bytes that standard input returns before it fails
 * - WRITES_1: the number of bytes that standard output takes, one at a time, before it fails
 * - WRITES_2: the same for standard error
 */
#define _GNU_SOURCE
#include <dlfcn.h>
#include <errno.h>
#include <malloc.h>
#include <stdlib.h>
#include <unistd.h>

static size_t requests, used, given, written[3];

static size_t limit(const char *name) {
    const char *digits = getenv(name);
    return digits ? strtoul(digits, NULL, 10) : (size_t)-1;
}

extern void *__libc_malloc(size_t);
extern void *__libc_realloc(void *, size_t);
extern void __libc_free(void *);

/* Whether `more` bytes fit beside the ones in use, and this allocation is not the refused one. */
static int has_room(size_t more, size_t freed) {
    size_t room = limit("ROOM");
    requests++;
    return requests != limit("LACKS") && more <= room && used - freed <= room - more;
}

void *malloc(size_t size) {
    void *made = has_room(size, 0) ? __libc_malloc(size) : NULL;
    used += made ? malloc_usable_size(made) : 0;
    return made;
}

void *realloc(void *old, size_t size) {
    size_t was = old ? malloc_usable_size(old) : 0;
    void *made = has_room(size, was) ? __libc_realloc(old, size) : NULL;
    if (made)
        used = used - was + malloc_usable_size(made);
    return made;
}

void free(void *old) {
    used -= old ? malloc_usable_size(old) : 0;
    __libc_free(old);
}

ssize_t read(int from, void *to, size_t size) {
    static ssize_t (*next)(int, void *, size_t);
    if (!next)
        next = (ssize_t (*)(int, void *, size_t))dlsym(RTLD_NEXT, "read");
    if (from != STDIN_FILENO)
        return next(from, to, size);
    size_t left = limit("GIVES") - given, most = limit("TAKES");
    if (left == 0) {
        errno = EIO;
        return -1;
    }
    size = size < left ? size : left;
    ssize_t count = next(from, to, size < most ? size : most);
    given += count > 0 ? (size_t)count : 0;
    return count;
}

ssize_t write(int to, const void *from, size_t size) {
    static ssize_t (*next)(int, const void *, size_t);
    if (!next)
        next = (ssize_t (*)(int, const void *, size_t))dlsym(RTLD_NEXT, "write");
    const char *name = to == STDOUT_FILENO ? "WRITES_1" : to == STDERR_FILENO ? "WRITES_2" : NULL;
    if (!name || !getenv(name) || size == 0)
        return next(to, from, size);
    if (written[to] >= limit(name)) {
        errno = ENOSPC;
        return -1;
    }
    ssize_t count = next(to, from, 1);
    written[to] += count > 0 ? (size_t)count : 0;
    return count;
}

/* The name under which one compiler's programs call it. */
ssize_t __write(int to, const void *from, size_t size) { return write(to, from, size); }
