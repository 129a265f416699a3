/* What a proved program calls of a machine for its words and errno, by c/src/words.c. Its words are
 * `one`, an empty one, and `three`. */
#include <errno.h>
#include <stddef.h>
#include <stdint.h>
#include <stdio.h>
#include <string.h>

size_t rattle_arg_count(void);
ptrdiff_t rattle_arg(size_t place, uint8_t *to, size_t room);
int32_t rattle_errno(void);
void rattle_set_errno(int32_t error);

static int passed, failed;

static void look(const char *what, int is_well)
{
    passed += is_well;
    failed += !is_well;
    if (!is_well)
        printf("FAILED: %s\n", what);
}

/* Whether a word is read so into this room, and nothing is written behind it. */
static int is_read(size_t place, size_t room, ptrdiff_t length, const char *bytes)
{
    uint8_t to[8];
    const size_t n = strlen(bytes);
    memset(to, '-', sizeof to);
    return rattle_arg(place, to, room) == length && memcmp(to, bytes, n) == 0 && to[n] == '-';
}

int main(void)
{
    look("the count", rattle_arg_count() == 4);
    look("a word", is_read(1, 7, 3, "one"));
    look("a word that fits", is_read(1, 3, 3, "one"));
    look("a word that does not", is_read(3, 4, -2, "thre"));
    look("no room", is_read(3, 0, -2, ""));
    look("an empty word", is_read(2, 0, 0, ""));
    look("no word", is_read(4, 7, -1, "") && is_read(5, 7, -1, ""));
    rattle_set_errno(ENOSPC);
    look("errno is set", errno == ENOSPC);
    errno = EIO;
    look("errno", rattle_errno() == EIO);
    printf("%d passed, %d failed\n", passed, failed);
    return failed != 0;
}
