/* What happens while another program keeps this one from its card. */
#ifndef WAITING_H
#define WAITING_H

#include "system.h"

#include <pthread.h>

/* A watch over calls that return only after another program has ended its transaction: pcsc-lite
 * can't cancel them. */
struct waiting {
    const char *reader;
    long limit;
    struct bell end;        /* rings when the calls have returned */
    pthread_t thread;
};

/* Starts to watch. While another program uses this reader, the watch prints `waiting for another
 * program` to standard error after one second. After `limit` seconds, and half a second at least,
 * it ends the process: with a line `another program holds the card` and status 1. Below 0 there is
 * no limit. Returns NULL, or a few words that say why there is no watch. */
const char *waiting_begin(struct waiting *waiting, const char *reader, long limit);

/* Ends a watch in progress. */
void waiting_end(struct waiting *waiting);

#endif
