import os
import time

import smartcard

waited = {}

SCARD_SCOPE_USER, SCARD_S_SUCCESS, SCARD_E_TIMEOUT = 0, 0, -2146435062
SCARD_STATE_UNAWARE, SCARD_STATE_CHANGED, SCARD_STATE_PRESENT = 0, 2, 32
SCARD_STATE_UNKNOWN, SCARD_STATE_UNAVAILABLE = 4, 8
SCARD_SHARE_EXCLUSIVE, SCARD_RESET_CARD, SCARD_E_NO_READERS_AVAILABLE = 1, 1, 46


def SCardReleaseContext(context):
    return SCARD_S_SUCCESS


def SCardEstablishContext(scope):
    return 9 if (smartcard.ROOM / "gone").exists() else SCARD_S_SUCCESS, 1


def SCardGetErrorMessage(code):
    return f"error {code}"


def SCardGetStatusChange(context, timeout, states):
    [(reader, known)] = states
    if (smartcard.ROOM / "gone").exists():
        return 9, []
    if reader not in smartcard.readers():
        return SCARD_S_SUCCESS, [(reader, SCARD_STATE_UNKNOWN | SCARD_STATE_CHANGED, [])]
    count = smartcard.number_in(reader) + smartcard.counts.get(reader, 0)
    is_out = (smartcard.ROOM / reader / "out").exists()
    state = count << 16 | (0 if is_out else SCARD_STATE_PRESENT)
    if state == known and timeout:
        time.sleep(min(timeout, 20) / 1000)
        waited[reader] = waited.get(reader, 0) + 1
        if waited[reader] == 5 and "LIES" not in os.environ:
            # a card without activity is changed
            waited[reader] = 0
            smartcard.change(reader, smartcard.number_in(reader))
    if state == known:
        return SCARD_E_TIMEOUT, [(reader, state, [])]
    return SCARD_S_SUCCESS, [(reader, state | SCARD_STATE_CHANGED, [])]


def SCardListReaders(context, groups):
    found = smartcard.readers()
    return SCARD_S_SUCCESS if found else SCARD_E_NO_READERS_AVAILABLE, found
