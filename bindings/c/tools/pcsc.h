/* The header of PC/SC, and what Windows' own one lacks of pcsc-lite's. */
#ifndef PCSC_H
#define PCSC_H

#include <winscard.h>

#ifdef _WIN32
#define MAX_ATR_SIZE 36
/* what answers the calls, and what helps a user whom it refuses */
#define SERVICE "the smart card service"
#define REMEDY ""
const char *pcsc_stringify_error(LONG code);
#else
#define SERVICE "pcscd"
#define REMEDY ": log in at the machine itself, or let polkit allow it"
#endif

#endif
