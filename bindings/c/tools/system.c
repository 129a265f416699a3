#define _POSIX_C_SOURCE 200112L

#include "system.h"

#include <fcntl.h>
#include <poll.h>
#include <unistd.h>

bool system_begin(void)
{
    int fd;
    for (fd = STDIN_FILENO; fd <= STDERR_FILENO; fd++) {
        /* open takes the lowest free number, which is this one */
        if (fcntl(fd, F_GETFD) < 0
            && open("/dev/null", fd == STDIN_FILENO ? O_WRONLY : O_RDONLY) != fd)
            return false;
    }
    return true;
}

void system_pause(int milliseconds)
{
    poll(NULL, 0, milliseconds);
}

bool bell_make(struct bell *bell)
{
    bell->event = NULL;
    return pipe(bell->ends) == 0;
}

bool bell_await(const struct bell *bell, int milliseconds)
{
    struct pollfd end = { 0, POLLIN, 0 };
    end.fd = bell->ends[0];
    return poll(&end, 1, milliseconds) != 0;
}

void bell_ring(struct bell *bell)
{
    close(bell->ends[1]);
}

void bell_free(struct bell *bell)
{
    close(bell->ends[0]);
}
