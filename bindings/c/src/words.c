/* What a proved program calls beside the C library and the functions for memory: the words of its
 * command line, and errno. The toolchain has these for x86-64 alone. */
#include <errno.h>
#include <stddef.h>
#include <stdint.h>
#include <string.h>

size_t rattle_arg_count(void);
ptrdiff_t rattle_arg(size_t place, uint8_t *to, size_t room);
int32_t rattle_errno(void);
void rattle_set_errno(int32_t error);

static size_t count;
static char **words;

/* glibc passes these to each function that runs before main */
__attribute__((constructor)) static void keep(int argc, char **argv)
{
    count = (size_t)argc;
    words = argv;
}

size_t rattle_arg_count(void)
{
    return count;
}

/* Copies a word, and returns its length: -1 without such a word, -2 if all does not fit. */
ptrdiff_t rattle_arg(size_t place, uint8_t *to, size_t room)
{
    size_t n;
    if (place >= count || words[place] == NULL)
        return -1;
    n = strlen(words[place]);
    memcpy(to, words[place], n < room ? n : room);
    return n <= room ? (ptrdiff_t)n : -2;
}

int32_t rattle_errno(void)
{
    return errno;
}

void rattle_set_errno(int32_t error)
{
    errno = error;
}
