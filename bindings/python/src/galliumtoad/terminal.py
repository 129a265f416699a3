"""The terminal: `Terminal` for operations, `Exchange` for one command, `T1` for a line at T=1."""

import enum
from dataclasses import dataclass, field
from types import MethodType
from typing import Any, Callable, NamedTuple, Optional, Protocol, Union

from ._library import ffi, lib
from ._operation import GET, PUT, SELECT, SEND, begin, run
from .answers import Answer, Edc, Status
from .errors import BlockError, Outcome, checked
from .handle import (Bytes, Handle, Lasting, copied, plain, readable, shown, tag_number, within,
                     writable)

Line = Callable[[bytes, int], Bytes]


class Level(enum.IntEnum):
    """What a transport carries: whole TPDUs, as PC/SC does at T=0, or whole commands, as at T=1 or
    without contacts. Neither is false."""

    TPDU, APDU = range(1, 3)


# Looked up once: an access to a member of an enum is slow.
_TPDU, _APDU = Level.TPDU, Level.APDU
_NO_LEVEL = object()


class Transport(Protocol):
    """Carries bytes to a card, at its `level`, and returns the card's data and SW1 SW2. If it
    raises, `Terminal.run` ends with that, and sends nothing more."""

    @property
    def level(self) -> Level: ...

    def __call__(self, data: bytes, /) -> Bytes: ...


class Function(Protocol):
    """A function or a method without a `level`, as a transport of whole TPDUs."""

    __name__: str

    def __call__(self, data: bytes, /) -> Bytes: ...


class Operation:
    """What a terminal carries out: a `Select`, `Get`, `Put` or `Send`, not of a derived class."""


@dataclass(frozen=True)
class Select(Operation):
    """Selects the application with this identifier, of 5 to 16 bytes."""

    aid: Bytes


@dataclass(frozen=True)
class Get(Operation):
    """Reads the data object with this tag. With 9000 the data should be its tag, length and value:
    `Answer.object` looks, since some cards send the value alone."""

    tag: int


@dataclass(frozen=True)
class Put(Operation):
    """Stores a value under a tag, in one command or a chain of them, of at most 255 bytes of data
    each. It stops at the first status other than 9000."""

    tag: int
    value: Bytes = field(repr=False)

    def __init__(self, tag: int, value: Bytes) -> None:
        # as a frozen dataclass does, for half as much
        vars(self).update(tag=tag, value=value)


@dataclass(frozen=True)
class Send(Operation):
    """Sends one command, and fetches as much of the response as its Le asks for: all with Le 00,
    and none without Le."""

    command: Bytes = field(repr=False)


# How each operation is begun: its kind, its tag or 0, and its data.
_WORDS: dict[type, Callable[[Any], tuple[int, int, Bytes]]] = {
    Select: lambda it: (SELECT, 0, it.aid),
    Get: lambda it: (GET, tag_number(it.tag), b""),
    Put: lambda it: (PUT, tag_number(it.tag), it.value),
    Send: lambda it: (SEND, 0, it.command),
}


def words_of(operation: Operation) -> tuple[int, int, Bytes]:
    """Returns an operation's kind, its tag or 0, and its data. Raises `TypeError`."""
    words = _WORDS.get(type(operation))
    if words is None:
        raise TypeError(f"{type(operation).__name__} is not an operation")
    return words(operation)


class Due(NamedTuple):
    """What goes to the card now, and the most bytes of data that may come back, 0 to 256, before
    SW1 SW2. Its `repr` hides the data."""

    data: bytes
    most: int

    def __repr__(self) -> str:
        return shown(self)


class Machine(Handle):
    """What a terminal and an exchange share: characters, TPDUs and commands, and the answer.

    The first character sent, or the first answer that is taken or fails the operation, sets the
    level: characters and TPDUs, or commands. From then on calls of the other level raise
    `CallError`, GT_STATE, and change nothing.
    """

    def send_bytes(self) -> bytes:
        """Returns all characters that go to the card now. They count as sent. If the card sends
        next, or after the end, these are no bytes.

        Errors, after which nothing has changed:
        - CallError, GT_FAILED: the exchange or operation has failed.
        - CallError, GT_STATE: no operation has begun, or it is at the level of commands.
        """
        # It never sends more than a header, or the data of one command, before it listens.
        return self._copied("send_bytes", room=lib.GT_TPDU_LIMIT + 1)

    def receive_bytes(self, data: Bytes) -> None:
        """Takes characters of the card.

        Errors:
        - LineError: the character at `place` does not fit. Those before it are taken. The class
          says after which codes the operation has failed.
        - CallError, GT_STATE: it is at the level of commands; nothing has changed.
        """
        taken = ffi.new("size_t *")
        self._call("receive_bytes", *readable(data), taken, place=taken)

    def tpdu(self) -> Optional[Due]:
        """Returns the whole TPDU that goes to the card now. Returns None if a character of it was
        sent, if no operation has begun, or if it has ended or failed.

        Raises `CallError`, GT_STATE, at the level of commands.
        """
        return self._due("tpdu")

    def answered(self, answer: Bytes) -> None:
        """Takes the answer to the TPDU of `tpdu`: data and SW1 SW2. Another TPDU follows, or the
        exchange or operation has ended.

        Errors:
        - TransportError: it does not fit, or no TPDU is next; nothing has changed.
        - LineError: the response is too long, or stalls; the operation has failed for good.
        - CallError, GT_STATE: it is at the level of commands; nothing has changed.
        """
        self._done("answered", readable(answer))

    def apdu(self) -> Optional[Due]:
        """Returns the whole command that goes to a card at T=1 now, or None if the operation has
        ended or failed.

        Errors, after which nothing has changed:
        - CallError, GT_STATE: no operation has begun, or it is at the other level.
        - OutOfMemory: memory ran out for this level.
        """
        return self._due("apdu")

    def responded(self, response: Bytes) -> None:
        """Takes the response to the command of `apdu`: data and SW1 SW2. Another command follows,
        or the exchange or operation has ended. Errors as `answered` and `apdu`."""
        self._done("responded", readable(response))

    def _due(self, name: str) -> Optional[Due]:
        words = self._room, self._count, self._most
        found = self._done(name, words, [lib.GT_NOT_DUE], None, self._most)
        return None if found == lib.GT_NOT_DUE else Due(*found)

    def data_sent(self) -> Optional[bool]:
        """Returns whether all data of the commands so far have left the terminal. False if they
        have not: this comes first by characters and TPDUs, and stays if a card ended a piece of a
        put before that. None is not known: a TPDU or a command went as a whole, also without data,
        or GT_BAD_PROCEDURE or GT_TOO_LONG has ended the last TPDU.

        A card may end a TPDU with any status before it takes the data: then a status 61XX, 62XX,
        63XX or 9XXX is no success.

        Raises `CallError`, GT_STATE, if no operation has begun.
        """
        return {lib.GT_ALL_SENT: True, lib.GT_NOT_ALL_SENT: False}.get(self._call("data_sent"))

    def answer(self) -> Optional[Answer]:
        """Returns the status and the data of the last command, as often as it is asked for. Returns
        None before the end and after a failure.

        A terminal's answer stays until the next operation begins or `reset`.
        """
        words = self._status, self._room, lib.GT_RESPONSE_LIMIT, self._count
        found = self._done("answer", words, [lib.GT_STATE, lib.GT_NOT_FOUND], None, self._status)
        return Answer(Status(found[1]), found[0]) if isinstance(found, tuple) else None


class Exchange(Machine):
    """Begins the terminal's end of one command.

    `limit`, 0 to 16,384, the default, is the most bytes of data that the response may bring. At the
    first one beyond, the exchange fails for good: GT_TOO_LONG.

    With Le 00 it fetches the whole response, with another Le at most that many bytes, without Le
    none. Errors, after which there is no exchange:
    - CommandError: the bytes are not a command with short lengths.
    - CallError, GT_ARGUMENT: `limit` is above 16,384.
    - ValueError: `limit` is below 0 or above 2^63.
    - OutOfMemory: memory ran out.

    >>> from galliumtoad import Card, Exchange
    >>> with Card({bytes(5): {}}) as card:
    ...     with Exchange(bytes.fromhex("00A4040005000000000000")) as exchange:
    ...         while (due := exchange.tpdu()) is not None:
    ...             exchange.answered(card.tpdu(due.data))
    ...         print(exchange.answer())
    Answer(status=Status(0x9000), data=<9 bytes>)
    """

    def __init__(self, command: Bytes, limit: int = lib.GT_RESPONSE_LIMIT) -> None:
        limit = within(limit, 0, 1 << 63, "a limit")
        super().__init__("exchange", ("start_within", *readable(command), limit))


class Terminal(Machine, Lasting):
    """Carries out one operation after another.

    `limit`, 0 to 16,384, the default, is the most bytes of data that a response may bring. At the
    first one beyond, the operation fails for good: GT_TOO_LONG.

    Errors, after which there is no terminal:
    - CallError, GT_ARGUMENT: `limit` is above 16,384.
    - ValueError: `limit` is below 0 or above 2^63.
    - OutOfMemory: memory ran out.

    No chain may be pending at the card when an operation begins, unless a `Send` continues it. One
    may be after a fault: a put under the same tag would continue it. So reset the card after a
    fault.

    >>> from galliumtoad import Card, Get, Select, Terminal
    >>> aid = bytes.fromhex("A0000000031010")
    >>> with Card({aid: {0x5F20: b"JOE"}}) as card, Terminal() as terminal:
    ...     terminal.run(card.tpdu, Select(aid)).status.is_ok
    ...     terminal.run(card.tpdu, Get(0x5F20)).object(0x5F20).value
    True
    b'JOE'
    """

    def __init__(self, limit: int = lib.GT_RESPONSE_LIMIT) -> None:
        super().__init__("terminal", ("new_within", within(limit, 0, 1 << 63, "a limit")))
        self._address = int(ffi.cast("uintptr_t", self._handle))

    def begin(self, operation: Operation) -> None:
        """Begins an operation, and drops the last answer.

        Errors, after which nothing has changed:
        - CallError, GT_STATE: an operation is in progress: it has neither ended nor failed.
        - CallError, GT_ARGUMENT: an identifier not of 5 to 16 bytes, or a tag that no command can
          name.
        - ValueError: a tag below 0 or above 0xFFFFFF.
        - CommandError: the bytes of `Send` are not a command.
        - TypeError: it is not an operation.
        - OutOfMemory: memory ran out.
        """
        checked(begin(self._address, self._calls, plain, words_of(operation)))

    def run(self, transport: Union[Transport, Function], operation: Operation) -> Answer:
        """Carries out an operation over a transport, and returns the card's answer.

        Errors:
        - TypeError: the transport is neither a function nor a callable whose `level` is a `Level`;
          nothing was sent.
        - as `begin`: nothing was sent, and nothing has changed.
        - once the operation has begun: what the transport raises, TypeError if it returns something
          other than bytes, or as `answered` and `apdu`. The terminal is reset. What the card has
          done is unknown, so reset it too. `BlockError.outcome` becomes that of the operation.
        """
        # a method has the attributes of its function, but is slow to say that one is missing
        holder = transport.__func__ if isinstance(transport, MethodType) else transport
        level = getattr(holder, "level", _NO_LEVEL)
        if level is _NO_LEVEL and hasattr(transport, "__name__"):
            level = _TPDU
        if not (callable(transport) and isinstance(level, Level)):
            name = type(transport).__name__
            raise TypeError(f"{name} is neither a function nor a callable with a `level`, a Level")
        words = words_of(operation)
        seen: list[int] = []  # 0 once it has begun, then SW1 of each response to a whole command
        try:
            found = run(self._address, self._calls, plain, words, transport, seen, level is _APDU)
            if isinstance(found, int):
                checked(found)
            status, data = found
            # as Answer(..), for half as much
            return tuple.__new__(Answer, (Status(status), data))
        except BaseException as error:
            if isinstance(error, BlockError) and seen[1:]:
                # 61XX announces the response of a command that the card has carried out
                known = Outcome.IN_PART if 0x61 in seen else Outcome.UNKNOWN
                error.outcome = max(known, error.outcome)
            if seen:
                self.reset()
            raise


class T1(Lasting):
    """A terminal's end of a line at T=1 (ISO/IEC 7816-3, clause 11), as a transport.

    It carries whole commands as blocks over a line that may damage and lose them. `edc` and `ifsc`
    are those of `Atr.t1`, by default LRC and 32. Errors, after which there is no end:
    - CallError, GT_ARGUMENT: an EDC other than LRC, or an IFSC of 0 or 255.
    - ValueError: one of both is below 0 or above 255.
    - TypeError: the line is not callable.
    - OutOfMemory: memory ran out.

    It gives up after more than 4 fruitless receptions since the last progress, or more than 1,000
    S(WTX request) and S(IFS request) in one command. A granted one is not fruitless. It also gives
    up after S(ABORT request), and if a response exceeds 258 bytes, as none to a short command does.
    Before the first command, also after `reset`, it sends S(IFS request). If 5 receptions bring no
    response to that, it does not give up: it sends the command, with all its tries.

    The line is a callable with two arguments. It sends the bytes of the first, if there are any,
    and returns the bytes received since. It returns no bytes if none came in time: within BWT times
    the second argument after a block was sent, and within CWT inside a block. Nor does it after a
    wrong parity: it drops the rest of that block. BGT passes before it sends a block.

    >>> from galliumtoad import T1, BlockError
    >>> with T1(lambda data, waits: b"") as no_card:
    ...     try:
    ...         no_card(bytes.fromhex("00CA005000"))
    ...     except BlockError as error:
    ...         print(f"{error}: {error.outcome.name}")
    too many tries without progress: UNKNOWN
    """

    level = Level.APDU

    def __init__(self, line: Line, edc: int = Edc.LRC, ifsc: int = 32) -> None:
        if not callable(line):
            raise TypeError("the line is not callable")
        self.line, limits = line, (lib.GT_T1_TRIES, lib.GT_T1_EXTENSIONS, lib.GT_ANSWER_LIMIT)
        said = within(edc, 0, 255, "EDC"), within(ifsc, 0, 255, "IFSC")
        super().__init__("t1", ("new", *said, *limits))

    def __call__(self, command: Bytes, /) -> bytes:
        """Carries a command to the card, and returns the response.

        Errors:
        - BlockError: the end gave up. Reset the card and this end.
        - what the line raises, or TypeError if it returns something other than bytes: the command
          is still in progress. Reset the card and this end. What is false, as None, counts as no
          bytes.
        - CallError, GT_STATE: a command is still in progress, or the end gave up and was not reset.
        - OutOfMemory: memory ran out for a command of more than 261 bytes. Nothing was sent.
        """
        self._call("begin", *readable(command))
        waits, taken, room = ffi.new("uint8_t *"), ffi.new("size_t *"), lib.GT_BLOCK_LIMIT
        made, count = writable(room)
        while not self._call("send_bytes", made, room, count, waits, but=[lib.GT_FAILED]):
            came = self.line(copied(made, count), waits[0])
            while came and not self._call("receive_bytes", *readable(came), taken):
                came = self.line(b"", 1)
            if not came:
                self._call("missed")
        cause, outcome = ffi.new("int32_t *"), ffi.new("int32_t *")
        if not self._call("fault", cause, outcome, but=[lib.GT_NOT_FOUND]):
            raise BlockError(cause[0], outcome[0])
        return self._copied("response", room=lib.GT_ANSWER_LIMIT)
