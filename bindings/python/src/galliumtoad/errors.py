"""The exceptions that calls of the library raise: one class for each kind of code."""

import enum
from typing import Any, Collection, Optional

from ._library import ffi, lib


class Code(enum.IntEnum):
    """Why a call failed: the codes of `galliumtoad.h` below 0, without GT_ in front."""

    NULL, EMPTY, STATE, MEMORY, ARGUMENT, BUFFER = range(-1, -7, -1)
    BUSY, NOT_FOUND, FAILED, PLANS = range(-7, -11, -1)
    APP_TWICE, TOO_MANY_APPS, NO_APP, VALUE_TOO_LONG, NOT_OBJECTS, TABLE_FULL = range(-20, -26, -1)
    NOT_LISTENING, BAD_PROCEDURE, TOO_LONG, STALLED, AFTER_END = range(-30, -35, -1)
    TAG_CUT, TAG_FORM, LENGTH_CUT, LENGTH_FORM, VALUE_CUT, TOO_DEEP = range(-40, -46, -1)
    TOO_SHORT, BAD_LENGTH, INVALID_INS = range(-50, -53, -1)
    NOT_DUE, NO_STATUS, NOT_ASKED, TOO_MANY, NO_TPDU, WANTS_DATA, SENDS_DATA = range(-60, -67, -1)
    ATR_NO_TS, ATR_CUT, ATR_TOO_LONG, ATR_ORDER, ATR_SURPLUS = range(-70, -75, -1)
    ATR_CHECK_MISSING, ATR_CHECK_NOT_DUE, ATR_CHECK_WRONG = range(-75, -78, -1)
    PPS_NO_PPSS, PPS_CUT, PPS_RESERVED, PPS_SURPLUS, PPS_CHECK_WRONG = range(-80, -85, -1)
    TRIES_SPENT, EXTENSIONS_SPENT, ABORTED = range(-90, -93, -1)


class Outcome(enum.IntEnum):
    """Whether a card carried out the command at which an end at T=1 gave up, or its operation. With
    IN_PART it did, and only a part of the response arrived."""

    NOT_CARRIED_OUT, UNKNOWN, IN_PART = range(3)


class Error(Exception):
    """The library refused a call, or could not end it. The text is the library's, and the place.

    `code` is a `Code`, and `name` its name in `galliumtoad.h`. `place` is the index of the faulty
    byte, from 0, in `ObjectsError`, `AtrError` and `LineError`, which say more. Others have None.

    >>> import galliumtoad
    >>> try:
    ...     galliumtoad.objects(bytes.fromhex("5F2003414E"))
    ... except galliumtoad.ObjectsError as error:
    ...     print(error, error.name, error.place)
    value cut at byte 0 GT_VALUE_CUT 0
    """

    def __init__(self, code: int, place: Optional[int] = None) -> None:
        text = ffi.string(lib.gt_text(code)).decode()
        super().__init__(text if place is None else f"{text} at byte {place}")
        self.code, self.place = Code(code), place
        self.name = f"GT_{self.code.name}"

    def __reduce__(self) -> tuple[Any, ...]:  # for pickle and copy, which would pass the text alone
        return type(self), (self.code, self.place), vars(self)


class CallError(Error):
    """The state, the arguments, or what an application answered do not fit the call, or memory ran
    out (`OutOfMemory`). Nothing has changed, except as the comment of the call or its class says.

    GT_FAILED of `send_bytes` is one too: the exchange or operation failed before.
    """


class OutOfMemory(CallError, MemoryError):
    """Memory ran out. Nothing has changed, except as the comment of the call or its class says."""


class BuildError(Error):
    """A card can't have these tables. There is no card."""


class LineError(Error):
    """A received character or answer does not fit.

    - GT_BAD_PROCEDURE, GT_TOO_LONG, GT_STALLED: the exchange or operation has failed for good.
    - GT_NOT_LISTENING, GT_AFTER_END: it has changed nothing. Characters before it are taken.

    `place` is that of the character in `receive_bytes`, and None if an answer does not fit.
    """


class ObjectsError(Error):
    """The bytes are not a list of data objects of at most 16 levels. `place` is the first byte of
    the innermost object at fault."""


class CommandError(Error):
    """The bytes are not a command. Nothing has changed."""


class TransportError(Error):
    """A whole TPDU, or the answer to a TPDU or command, does not fit. Nothing has changed, except
    as `Terminal.run` says, and after GT_WANTS_DATA and GT_SENDS_DATA. These reset the card, with an
    application of your own, and use up the plan."""


class AtrError(Error):
    """The bytes are not an answer to reset. This is their first fault from the left; a wrong check
    byte comes last.

    `place` counts from 0 for TS. If a byte is missing, it is the number of bytes, and it is 33 with
    GT_ATR_TOO_LONG. After GT_ATR_CUT or GT_ATR_CHECK_MISSING more bytes may mend them.
    """


class PpsError(Error):
    """The bytes are not a PPS response."""


class BlockError(Error):
    """A terminal's end at T=1 gave up, and `code` says why: GT_TRIES_SPENT, GT_EXTENSIONS_SPENT,
    GT_ABORTED or GT_TOO_LONG. `outcome` is the `Outcome` of the command, or from `Terminal.run`
    that of the operation: GET RESPONSE belongs to a command that the card has carried out."""

    def __init__(self, code: int, outcome: Optional[int] = None) -> None:
        super().__init__(code)
        self.outcome = Outcome.UNKNOWN if outcome is None else Outcome(outcome)


# The header numbers its codes by kind, ten for each, in the order above; CallError has twenty.
_KINDS = [CallError, *Error.__subclasses__()]


def checked(code: int, place: Any = None, but: Collection[int] = ()) -> int:
    """Returns a code if it is 0 or above, or in `but`. Raises every other, with the place that
    `place` points to."""
    if code >= 0 or code in but:
        return code
    kind = OutOfMemory if code == lib.GT_MEMORY else _KINDS[-code // 10]
    has_place = place is not None and kind in (ObjectsError, AtrError, LineError)
    raise kind(code, place[0] if has_place else None)
