#include "pcsc.h"
#include "system.h"

#include <fcntl.h>
#include <io.h>
#include <stdio.h>
#include <string.h>
#include <windows.h>

bool system_begin(void)
{
    int fd;
    for (fd = 0; fd <= 2; fd++)
        _setmode(fd, _O_BINARY); /* a closed one stays closed */
    return true;
}

void system_pause(int milliseconds)
{
    Sleep((DWORD)milliseconds);
}

bool bell_make(struct bell *bell)
{
    bell->event = CreateEventA(NULL, TRUE, FALSE, NULL);
    return bell->event != NULL;
}

bool bell_await(const struct bell *bell, int milliseconds)
{
    return WaitForSingleObject(bell->event, (DWORD)milliseconds) != WAIT_TIMEOUT;
}

void bell_ring(struct bell *bell)
{
    SetEvent(bell->event);
}

void bell_free(struct bell *bell)
{
    CloseHandle(bell->event);
}

const char *pcsc_stringify_error(LONG code)
{
    static char text[200];
    const DWORD how = FORMAT_MESSAGE_FROM_SYSTEM | FORMAT_MESSAGE_IGNORE_INSERTS;
    if (FormatMessageA(how, NULL, (DWORD)code, 0, text, sizeof text, NULL) == 0)
        return "no text";
    text[strcspn(text, "\r\n")] = '\0';
    return text;
}
