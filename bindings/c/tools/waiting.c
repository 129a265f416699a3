#define _POSIX_C_SOURCE 200112L

#include "waiting.h"
#include "pcsc.h"

#include <stdbool.h>
#include <stdio.h>
#include <string.h>
#include <unistd.h>

/* how often the watch looks, in milliseconds */
#define TICK 500

/* Whether a program is connected to the reader: another one, or this one, which then only waits for
 * the end of a transaction. Nobody uses a card that is slow to power up. */
static bool is_in_use(const char *reader)
{
    SCARD_READERSTATE state;
    SCARDCONTEXT context;
    LONG code;
    memset(&state, 0, sizeof state);
    state.szReader = reader;
    state.dwCurrentState = SCARD_STATE_UNAWARE;
    /* pcsc-lite runs no two calls of one context at once */
    if (SCardEstablishContext(SCARD_SCOPE_SYSTEM, NULL, NULL, &context) != SCARD_S_SUCCESS)
        return false;
    code = SCardGetStatusChange(context, 0, &state, 1);
    SCardReleaseContext(context);
    return code == SCARD_S_SUCCESS && (state.dwEventState & SCARD_STATE_INUSE) != 0;
}

static void *watch(void *its)
{
    const struct waiting *waiting = its;
    bool has_told = false;
    long tick;
    for (tick = 1; !bell_await(&waiting->end, TICK); tick++) {
        const bool is_late = waiting->limit >= 0 && tick * TICK >= waiting->limit * 1000;
        if ((!is_late && (has_told || tick * TICK < 1000)) || !is_in_use(waiting->reader))
            continue;
        fputs(is_late ? "another program holds the card\n" : "waiting for another program\n",
              stderr);
        if (is_late)
            _exit(1);
        has_told = true;
    }
    return NULL;
}

const char *waiting_begin(struct waiting *waiting, const char *reader, long limit)
{
    waiting->reader = reader;
    waiting->limit = limit;
    if (!bell_make(&waiting->end))
        return "cannot create a pipe";
    return pthread_create(&waiting->thread, NULL, watch, waiting) == 0 ? NULL
                                                                        : "cannot create a thread";
}

void waiting_end(struct waiting *waiting)
{
    bell_ring(&waiting->end);
    pthread_join(waiting->thread, NULL);
    bell_free(&waiting->end);
}
