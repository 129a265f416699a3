/* A stand-in for the tty of a serial port, over a pseudo terminal. By the linker's --wrap it gets
 * the calls of gt_port.c that set the port and its lines. Without STANDIN_TTY it does nothing.
 * The environment sets it up:
 *
 * - STANDIN_TTY: the file that gets a line for each of these calls.
 * - STANDIN_INPUTS: a file with the words cts, dsr, dcd, for the input lines that are on.
 * - STANDIN_REFUSES: a list of these words:
 *   - get, set: reading or changing the settings is an error.
 *   - set_again: the second change of the settings is an error.
 *   - bits, stop, parity, odd: that setting is dropped without an error.
 *   - baud: the port runs at 1,200 baud.
 *   - fast: the port runs at most at 9,600 baud.
 *   - lines: there are no other lines, so their use is an error.
 *   - on, off: switching a line on, or off, is an error.
 *   - stuck: a line stays as it is, without an error.
 *   - write: the port takes no character.
 *   - many: the port takes at most four characters at once.
 *   - halves: after FF the port first has no character.
 *
 * STANDIN_RATES are the rates for input and output that the port takes, whatever it is set to. With
 * or without STANDIN_TTY, STANDIN_CLOCK is how many times as fast the program's clock runs.
 *
 * A pseudo terminal has no parity. So the other end writes the mark of a character with wrong
 * parity: FF 00 before it, and FF FF for FF. */
#define _GNU_SOURCE

#include <asm/termbits.h>
#include <errno.h>
#include <stdarg.h>
#include <stdbool.h>
#include <stdio.h>
#include <stdlib.h>
#include <string.h>
#include <sys/ioctl.h>
#include <sys/stat.h>
#include <sys/sysmacros.h>
#include <time.h>
#include <unistd.h>

/* The numbers of Linux for serial ports: the major number, and the first minor number. */
enum { SERIAL_PORTS = 4, FIRST_PORT = 64 };

int __real_ioctl(int fd, unsigned long request, ...);
int __real_fstat(int fd, struct stat *found);
ssize_t __real_read(int fd, void *bytes, size_t n);
ssize_t __real_write(int fd, const void *bytes, size_t n);
int __real_clock_gettime(clockid_t clock, struct timespec *now);

/* The last settings, whether there are any, and how often a change was tried. */
static struct termios2 settings;
static bool is_set;
static unsigned long tries;

/* RTS and DTR are on while a tty is open. */
static int driven = TIOCM_RTS | TIOCM_DTR;

static bool has_word(const char *words, const char *word)
{
    const size_t n = strlen(word);
    while (words != NULL && *words != '\0') {
        const size_t size = strcspn(words, " \n");
        if (size == n && strncmp(words, word, n) == 0)
            return true;
        words += size + strspn(words + size, " \n");
    }
    return false;
}

static bool refuses(const char *what)
{
    return has_word(getenv("STANDIN_REFUSES"), what);
}

static void note(const char *text)
{
    FILE *log = fopen(getenv("STANDIN_TTY"), "a");
    if (log == NULL)
        abort();
    fprintf(log, "%s\n", text);
    fclose(log);
}

static int fail(int number)
{
    errno = number;
    return -1;
}

static void note_settings(const struct termios2 *wanted)
{
    const tcflag_t flags = wanted->c_cflag;
    char text[100];
    snprintf(text, sizeof text, "set %u baud, %s bits, %s parity%s, %s%s%s",
             (unsigned)wanted->c_ospeed, (flags & CSIZE) == CS8 ? "8" : "other",
             (flags & PARENB) == 0 ? "no" : (flags & PARODD) != 0 ? "odd" : "even",
             (wanted->c_iflag & INPCK) != 0 && (wanted->c_iflag & PARMRK) != 0 ? " with marks" : "",
             (flags & CSTOPB) != 0 ? "2 stop bits" : "1 stop bit",
             (flags & CREAD) != 0 ? "" : ", deaf", (flags & CLOCAL) != 0 ? "" : ", for a modem");
    note(text);
}

/* Takes settings, with the changes that STANDIN_REFUSES and STANDIN_RATES ask for. */
static void take_settings(const struct termios2 *wanted)
{
    const char *rates = getenv("STANDIN_RATES");
    char *next = NULL;
    settings = *wanted;
    if (rates != NULL) {
        settings.c_ispeed = (speed_t)strtoul(rates, &next, 10);
        settings.c_ospeed = (speed_t)strtoul(next, NULL, 10);
    }
    if (refuses("bits"))
        settings.c_cflag = (settings.c_cflag & ~(tcflag_t)CSIZE) | CS7;
    if (refuses("stop"))
        settings.c_cflag &= ~(tcflag_t)CSTOPB;
    if (refuses("parity"))
        settings.c_cflag &= ~(tcflag_t)PARENB;
    if (refuses("odd"))
        settings.c_cflag &= ~(tcflag_t)PARODD;
    if (refuses("baud"))
        settings.c_ispeed = settings.c_ospeed = 1200;
    if (refuses("fast") && settings.c_ospeed > 9600)
        settings.c_ispeed = settings.c_ospeed = 9600;
}

/* The pseudo terminal gets these settings without the marking of parity errors. */
static int set(int fd, const struct termios2 *wanted)
{
    struct termios2 passed = *wanted;
    passed.c_iflag &= ~(tcflag_t)(INPCK | PARMRK);
    note_settings(wanted);
    tries++;
    if (refuses("set") || (refuses("set_again") && tries == 2))
        return fail(EINVAL);
    is_set = true;
    take_settings(wanted);
    return __real_ioctl(fd, TCSETS2, &passed);
}

static int get(int fd, struct termios2 *found)
{
    if (refuses("get"))
        return fail(EIO);
    if (!is_set)
        return __real_ioctl(fd, TCGETS2, found);
    *found = settings;
    return 0;
}

static int drive(int bits, bool is_on)
{
    char text[40];
    snprintf(text, sizeof text, "%s%s %s", (bits & TIOCM_RTS) != 0 ? "rts" : "",
             (bits & TIOCM_DTR) != 0 ? "dtr" : "", is_on ? "on" : "off");
    note(text);
    if (refuses("lines") || refuses(is_on ? "on" : "off"))
        return fail(EIO);
    if (!refuses("stuck"))
        driven = is_on ? driven | bits : driven & ~bits;
    return 0;
}

static int look(int *bits)
{
    char words[80] = "";
    const char *name = getenv("STANDIN_INPUTS");
    FILE *file = name != NULL ? fopen(name, "r") : NULL;
    if (refuses("lines"))
        return fail(ENOTTY);
    if (file != NULL) {
        const size_t n = fread(words, 1, sizeof words - 1, file);
        words[n] = '\0';
        fclose(file);
    }
    *bits = driven | (has_word(words, "cts") ? TIOCM_CTS : 0)
        | (has_word(words, "dsr") ? TIOCM_DSR : 0) | (has_word(words, "dcd") ? TIOCM_CAR : 0);
    return 0;
}

int __wrap_ioctl(int fd, unsigned long request, ...)
{
    va_list more;
    void *argument;
    va_start(more, request);
    argument = va_arg(more, void *);
    va_end(more);
    if (getenv("STANDIN_TTY") == NULL)
        return __real_ioctl(fd, request, argument);
    switch (request) {
    case TCGETS2: return get(fd, argument);
    case TCSETS2: return set(fd, argument);
    case TIOCMGET: return look(argument);
    case TIOCMBIS: return drive(*(int *)argument, true);
    case TIOCMBIC: return drive(*(int *)argument, false);
    case TCFLSH: note((long)argument == TCIFLUSH ? "drop what has come" : "drop what has not gone");
        /* fall through */
    default: return __real_ioctl(fd, request, argument);
    }
}

int __wrap_fstat(int fd, struct stat *found)
{
    const int result = __real_fstat(fd, found);
    if (result == 0 && getenv("STANDIN_TTY") != NULL && S_ISCHR(found->st_mode))
        found->st_rdev = makedev(SERIAL_PORTS, FIRST_PORT);
    return result;
}

ssize_t __wrap_read(int fd, void *bytes, size_t n)
{
    static bool is_behind_ff;
    const bool waits = is_behind_ff && getenv("STANDIN_TTY") != NULL && refuses("halves");
    ssize_t count;
    is_behind_ff = false;
    if (waits)
        return fail(EAGAIN);
    count = __real_read(fd, bytes, n);
    is_behind_ff = count == 1 && *(const unsigned char *)bytes == 0xFF;
    return count;
}

ssize_t __wrap_write(int fd, const void *bytes, size_t n)
{
    if (fd > 2 && getenv("STANDIN_TTY") != NULL && refuses("write"))
        return fail(EAGAIN);
    if (fd > 2 && n > 4 && getenv("STANDIN_TTY") != NULL && refuses("many"))
        n = 4;
    return __real_write(fd, bytes, n);
}

int __wrap_clock_gettime(clockid_t clock, struct timespec *now)
{
    const char *times = getenv("STANDIN_CLOCK");
    const int result = __real_clock_gettime(clock, now);
    if (times != NULL) {
        const long rate = strtol(times, NULL, 10);
        now->tv_sec = now->tv_sec * rate + now->tv_nsec * rate / 1000000000;
        now->tv_nsec = now->tv_nsec * rate % 1000000000;
    }
    return result;
}
