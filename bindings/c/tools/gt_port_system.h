/* What gt_port.c needs to know of the system: settings of a tty, and who else has it. */
#ifndef GT_PORT_SYSTEM_H
#define GT_PORT_SYSTEM_H

#include <stdbool.h>
#include <stddef.h>
#include <sys/ioctl.h>
#include <sys/stat.h>

#if defined __linux__ && !defined GT_PORT_BY_TERMIOS

#include <asm/termbits.h>
#include <stdio.h>
#include <string.h>
#include <sys/sysmacros.h>

/* With these any rate is possible. */
typedef struct termios2 system_settings;

/* the numbers of Linux for the near ends of pseudo terminals */
enum { FIRST_PSEUDO = 136, LAST_PSEUDO = 143 };

static int system_get(int fd, system_settings *settings)
{
    return ioctl(fd, TCGETS2, settings);
}

static int system_put(int fd, const system_settings *settings)
{
    return ioctl(fd, TCSETS2, settings);
}

static void system_flush(int fd, int queue)
{
    ioctl(fd, TCFLSH, queue);
}

static bool system_set_rate(system_settings *settings, unsigned long baud)
{
    settings->c_cflag |= BOTHER;
    settings->c_ispeed = (speed_t)baud;
    settings->c_ospeed = (speed_t)baud;
    return true;
}

static unsigned long system_rate_in(const system_settings *settings)
{
    return settings->c_ispeed;
}

static unsigned long system_rate_out(const system_settings *settings)
{
    return settings->c_ospeed;
}

static bool system_is_pseudo(int fd, const char *name)
{
    struct stat found;
    unsigned number;
    (void)name;
    if (fstat(fd, &found) != 0 || !S_ISCHR(found.st_mode))
        return false;
    number = major(found.st_rdev);
    return number >= FIRST_PSEUDO && number <= LAST_PSEUDO;
}

/* The process that has locked a tty, or 0. The system's list of locks shows it without opening the
 * tty: opening may reset a card, and the process may prevent it. */
static long system_holder_of(const char *name)
{
    FILE *locks = fopen("/proc/locks", "re");
    struct stat tty;
    char line[128];
    unsigned first, second;
    unsigned long inode;
    long process, holder = 0;
    if (locks == NULL)
        return 0;
    while (stat(name, &tty) == 0 && fgets(line, sizeof line, locks) != NULL) {
        if (sscanf(line, "%*s POSIX %*s WRITE %ld %x:%x:%lu", &process, &first, &second, &inode)
                == 4
            && makedev(first, second) == tty.st_dev && inode == tty.st_ino)
            holder = process;
    }
    fclose(locks);
    return holder;
}

#else

#include <string.h>
#include <termios.h>

typedef struct termios system_settings;

/* The rates that each such system has. */
static const struct {
    unsigned long baud;
    speed_t speed;
} SPEEDS[] = {
    { 1200, B1200 }, { 2400, B2400 }, { 4800, B4800 }, { 9600, B9600 }, { 19200, B19200 },
    { 38400, B38400 },
#ifdef B57600
    { 57600, B57600 },
#endif
#ifdef B115200
    { 115200, B115200 },
#endif
};

enum { SPEEDS_COUNT = sizeof SPEEDS / sizeof SPEEDS[0] };

static int system_get(int fd, system_settings *settings)
{
    return tcgetattr(fd, settings);
}

static int system_put(int fd, const system_settings *settings)
{
    return tcsetattr(fd, TCSANOW, settings);
}

static void system_flush(int fd, int queue)
{
    tcflush(fd, queue);
}

static bool system_set_rate(system_settings *settings, unsigned long baud)
{
    size_t i = 0;
    while (i < SPEEDS_COUNT && SPEEDS[i].baud != baud)
        i++;
    return i < SPEEDS_COUNT && cfsetispeed(settings, SPEEDS[i].speed) == 0
        && cfsetospeed(settings, SPEEDS[i].speed) == 0;
}

/* 0: none of these. */
static unsigned long rate_of(speed_t speed)
{
    size_t i = 0;
    while (i < SPEEDS_COUNT && SPEEDS[i].speed != speed)
        i++;
    return i < SPEEDS_COUNT ? SPEEDS[i].baud : 0;
}

static unsigned long system_rate_in(const system_settings *settings)
{
    return rate_of(cfgetispeed(settings));
}

static unsigned long system_rate_out(const system_settings *settings)
{
    return rate_of(cfgetospeed(settings));
}

/* Such a system has no number for them, but this folder or this beginning. */
static bool system_is_pseudo(int fd, const char *name)
{
    (void)fd;
    return strncmp(name, "/dev/pts/", 9) == 0 || strncmp(name, "/dev/ttys", 9) == 0;
}

/* There is no list of locks. */
static long system_holder_of(const char *name)
{
    (void)name;
    return 0;
}

#endif

#endif
