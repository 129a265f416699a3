/* malloc, for programs that are linked with --wrap of it. It refuses the request with the number
 * REFUSE_AT of the environment, counted from 1, and notes that in the stand-in's log. */
#include <stdio.h>
#include <stdlib.h>

void *__real_malloc(size_t size);
void *__wrap_malloc(size_t size);

static int is_refused(void)
{
    static unsigned long time;
    const char *at = getenv("REFUSE_AT"), *name = getenv("STANDIN_LOG");
    FILE *file;
    if (at == NULL || name == NULL || strtoul(at, NULL, 10) != ++time)
        return 0;
    file = fopen(name, "a");
    if (file == NULL)
        exit(3);
    fputs("refused\n", file);
    fclose(file);
    return 1;
}

void *__wrap_malloc(size_t size)
{
    return is_refused() ? NULL : __real_malloc(size);
}
