/* The settings of a reader for pcscd (tools/serial_settings.h): each with its limits, and the text
 * that names a wrong word. The limits are those of gt_serial_reader(8). */
#include "check.h"
#include "serial_options.h"
#include "serial_settings.h"

static struct serial_settings found;
static char told[TEXT_ROOM];

/* Whether the text is read. */
static int reads(const char *text)
{
    const char *fault = serial_settings_read(&found, text, told);
    if (fault != NULL && fault != told)
        printf("the fault of %s is elsewhere\n", text);
    return fault == NULL;
}

/* Whether the text is refused with these words. */
static int refuses(const char *text, const char *words)
{
    if (reads(text))
        return 0;
    if (strcmp(told, words) == 0)
        return 1;
    printf("%s: %s\n", text, told);
    return 0;
}

static void names(void)
{
    CHECK(reads("/dev/ttyS0"), 1);
    CHECK(strcmp(found.tty, "/dev/ttyS0"), 0);
    CHECK(reads("/dev/ttyS0:"), 1);
    CHECK(strcmp(found.tty, "/dev/ttyS0"), 0);
    CHECK(reads("\"/dev/ttyS0:slack=1\""), 1);
    CHECK(strcmp(found.tty, "/dev/ttyS0"), 0);
    CHECK(found.slack, 1);
    CHECK(reads("\"t:slack=15"), 1);
    CHECK(found.slack, 15);
    CHECK(reads("\"/dev/serial/by-path/pci-0000:00:14.0:\""), 1);
    CHECK(strcmp(found.tty, "/dev/serial/by-path/pci-0000:00:14.0"), 0);
    CHECK(refuses("a:b:14.0", "unknown setting: '14.0'"), 1);
    CHECK(refuses("", "no tty: ''"), 1);
    CHECK(refuses("\"", "no tty: '\"'"), 1);
    CHECK(refuses("\"\"", "no tty: '\"\"'"), 1);
    CHECK(refuses(":slack=1", "no tty: ':slack=1'"), 1);
}

static void long_names(void)
{
    char text[600];
    memset(text, 'x', sizeof text);
    text[GT_PORT_NAME_ROOM - 1] = '\0';
    CHECK(reads(text), 1);
    CHECK(strlen(found.tty), GT_PORT_NAME_ROOM - 1);
    text[GT_PORT_NAME_ROOM - 1] = 'x';
    text[GT_PORT_NAME_ROOM] = '\0';
    CHECK(reads(text), 0);
    CHECK(strncmp(told, "no tty: 'xxx", 12), 0);
    text[GT_PORT_NAME_ROOM] = 'x';
    text[511] = '\0';
    CHECK(reads(text), 0);
    CHECK(strncmp(told, "no tty: 'xxx", 12), 0);
    text[511] = 'x';
    text[sizeof text - 1] = '\0';
    CHECK(reads(text), 0);
    CHECK(strncmp(told, "too long: 'xxx", 14), 0);
}

static void initial(void)
{
    CHECK(reads("t"), 1);
    CHECK(found.reset, GT_PORT_RTS);
    CHECK(found.held_by, 1);
    CHECK(found.echo, 1);
    CHECK(found.presence, GT_PORT_NONE);
    CHECK(found.present_by, 1);
    CHECK(found.pps, 0);
    CHECK(found.baud, 9600);
    CHECK(found.clock, 0);
    CHECK(found.slack, 200);
    CHECK(found.quiet, 20);
    CHECK(found.patience, 600);
}

static void words(void)
{
    CHECK(reads("t:reset=dtr,held-by=off,echo=no,presence=dsr,present-by=off,pps=yes"), 1);
    CHECK(found.reset, GT_PORT_DTR);
    CHECK(found.held_by, 0);
    CHECK(found.echo, 0);
    CHECK(found.presence, GT_PORT_DSR);
    CHECK(found.present_by, 0);
    CHECK(found.pps, 1);
    CHECK(reads("t:presence=cts"), 1);
    CHECK(found.presence, GT_PORT_CTS);
    CHECK(reads("t:presence=dcd,reset=rts"), 1);
    CHECK(found.presence, GT_PORT_DCD);
    CHECK(reads("t:presence=dcd,presence=always"), 1);
    CHECK(found.presence, GT_PORT_NONE);
    CHECK(reads("t:echo=yes,held-by=on,present-by=on,pps=no"), 1);
    CHECK(found.echo && found.held_by && found.present_by && !found.pps, 1);
    CHECK(refuses("t:reset=none", "wrong setting: 'reset=none'; 'reset' takes rts or dtr"), 1);
    CHECK(refuses("t:presence=rts",
                  "wrong setting: 'presence=rts'; 'presence' takes cts, dsr, dcd or always"), 1);
    CHECK(refuses("t:held-by=", "wrong setting: 'held-by='; 'held-by' takes off or on"), 1);
    CHECK(refuses("t:echo=never", "wrong setting: 'echo=never'; 'echo' takes no or yes"), 1);
    CHECK(refuses("t:pps=1", "wrong setting: 'pps=1'; 'pps' takes no or yes"), 1);
    CHECK(refuses("t:slack=5,paranoia=5,echo=no", "unknown setting: 'paranoia=5'"), 1);
    CHECK(refuses("t:echo", "unknown setting: 'echo'"), 1);
    CHECK(refuses("t:ech=no", "unknown setting: 'ech=no'"), 1);
    CHECK(refuses("t:echoes=no", "unknown setting: 'echoes=no'"), 1);
    CHECK(refuses("t:echo=no,,slack=5", "unknown setting: ''"), 1);
    CHECK(refuses("t:slack=5,", ""), 0);
}

/* A number with its limits. */
static void number(const char *name, const unsigned long *field, unsigned long least,
                   unsigned long most)
{
    char text[60], wanted[200];
    const unsigned long wrong[] = { least - 1, most + 1 };
    size_t i;
    snprintf(text, sizeof text, "t:%s=%lu", name, least);
    CHECK(reads(text), 1);
    CHECK(*field, least);
    snprintf(text, sizeof text, "t:%s=%lu", name, most);
    CHECK(reads(text), 1);
    CHECK(*field, most);
    for (i = least > 0 ? 0 : 1; i < 2; i++) {
        snprintf(text, sizeof text, "t:%s=%lu", name, wrong[i]);
        snprintf(wanted, sizeof wanted, "wrong setting: '%s'; '%s' takes a number from %lu to %lu",
                 text + 2, name, least, most);
        CHECK(refuses(text, wanted), 1);
    }
}

static void numbers(void)
{
    static const char *const WRONG[] = { "t:slack=", "t:slack=-1", "t:slack=1x", "t:slack=1 ",
                                         "t:slack=0x1", "t:slack=0000000001",
                                         "t:slack=99999999999999999999" };
    size_t i;
    number("baud", &found.baud, 1200, 1000000);
    number("clock", &found.clock, 1000000, 20000000);
    number("slack", &found.slack, 0, 60000);
    number("quiet", &found.quiet, 20, 1000);
    number("patience", &found.patience, 1, 86400);
    for (i = 0; i < sizeof WRONG / sizeof WRONG[0]; i++)
        CHECK(reads(WRONG[i]), 0);
    CHECK(reads("t:slack=000000009"), 1);
    CHECK(found.slack, 9);
}

int main(void)
{
    names();
    long_names();
    initial();
    words();
    numbers();
    return check_result("settings");
}
