"""Handles of the library, and what their calls take and return. Every other module uses it."""

import contextlib
from operator import index
from typing import Any, Collection, Iterable, Iterator, TypeVar, Union, get_args

from ._library import ffi, lib
from ._operation import IN_PROGRESS
from .errors import checked

Bytes = Union[bytes, bytearray, memoryview]
Self = TypeVar("Self", bound="Handle")
MOST_TAG = 0xFFFFFF
BYTES, COUNT = ffi.typeof("uint8_t[]"), ffi.typeof("size_t *")
FUNCTIONS = {it: getattr(lib, it) for it in dir(lib) if it.startswith("gt_")}


def plain(data: Bytes) -> bytes:
    """Copies a bytes-like object. Raises `TypeError` for other objects."""
    return bytes(memoryview(data).cast("B"))


def readable(data: Bytes) -> tuple[Any, int]:
    """Returns a bytes-like object as the library reads it, in place, and the number of its bytes.
    Raises `TypeError` for other objects."""
    # A memoryview is copied: if an exception's frames keep it, the collector may clear it before
    # cffi returns its buffer. A derived class may have another length.
    kept = data if type(data) in (bytes, bytearray) else plain(data)
    return kept if isinstance(kept, bytes) else ffi.from_buffer(BYTES, kept), len(kept)


def writable(room: int) -> tuple[Any, Any]:
    """Returns a buffer of `room` bytes for the library, and the count that it sets."""
    return ffi.new(BYTES, room), ffi.new(COUNT)


def copied(made: Any, count: Any) -> bytes:
    """Copies the bytes that the library wrote into a buffer."""
    return bytes(ffi.buffer(made, count[0]))


def shown(record: Any) -> str:
    """Returns the `repr` of a named tuple with the number of bytes in place of bytes."""
    each = (f"<{len(it)} bytes>" if isinstance(it, get_args(Bytes)) else repr(it) for it in record)
    return f"{type(record).__name__}({', '.join(map('{}={}'.format, record._fields, each))})"


def within(value: int, least: int, most: int, what: str) -> int:
    """Returns a number from `least` to `most`. Raises `ValueError` for any other number, and
    `TypeError` for what is no integer."""
    if not least <= (value := index(value)) <= most:
        raise ValueError(f"{what} is {value}, not from {least} to {most}")
    return value


def tag_number(tag: int) -> int:
    """Returns a tag, the number of its one to three bytes, as in 0x5F20. Raises `ValueError` for a
    number below 0 or above 0xFFFFFF."""
    number = index(tag)
    return number if 0 <= number <= MOST_TAG else within(number, 0, MOST_TAG, "a tag")


class Handle:
    """A context manager over a handle of the library. `close` or the collector frees it.

    One thread at a time may use it. Errors of each call, after which nothing has changed:
    - RuntimeError: another call of this handle is in progress: in another thread, or in this one if
      an `OwnCard`'s application calls its card.
    - CallError, GT_EMPTY, except from `close`: the handle is closed, a session has taken its card,
      or its session has ended.
    - TypeError: an argument that should be bytes is not bytes-like.
    """

    def __init__(self, kind: str, *calls: tuple[Any, ...]) -> None:
        self._handle = ffi.gc(ffi.new(f"gt_{kind} *"), FUNCTIONS[f"gt_{kind}_free"])
        # While no call has the handle, `_calls` and the buffer are empty.
        self._start, self._calls = f"gt_{kind}_", list[str]()
        self._room, self._count = writable(lib.GT_RESPONSE_LIMIT)
        self._most, self._status = ffi.new(COUNT), ffi.new("uint16_t *")
        self._written = ffi.buffer(self._room)
        for words in calls:
            self._call(*words)

    def _call(self, name: str, *words: Any, but: Collection[int] = (), place: Any = None) -> int:
        """Calls the library's function of this name with the handle. Returns its code, or 0 if it
        has none. Raises each fault except those in `but`."""
        return int(self._done(name, words, but, place))

    def _done(self, name: str, words: Iterable[Any], but: Collection[int] = (), place: Any = None,
              cell: Any = None) -> Any:
        """As `_call`, at less cost. With a `cell` it returns what the function has written to the
        handle's buffer, which is wiped, and set in the cell; but the code of a fault in `but`."""
        try:  # it enters here, since a signal's handler may raise after any call of C
            self._calls.append(name)
            if len(self._calls) > 1:
                raise RuntimeError(IN_PROGRESS)
            code = FUNCTIONS[self._start + name](self._handle, *words)
            if cell is not None and code >= 0:
                count, written = self._count[0], self._written
                data, written[:count] = written[:count], bytes(count)
                return data, cell[0]
        finally:
            self._calls.pop()
        return checked(code, place, but) if code else 0

    @contextlib.contextmanager
    def _alone(self) -> Iterator[None]:
        """Holds the handle for this thread, until the end of `with`."""
        try:
            self._calls.append("")
            if len(self._calls) > 1:
                raise RuntimeError(IN_PROGRESS)
            yield
        finally:
            self._calls.pop()

    def _copied(self, name: str, words: Iterable[Any] = (), *, room: int) -> bytes:
        """Calls a function with the handle's buffer, a room and a count. Returns what it wrote."""
        all_words = *words, self._room, min(room, lib.GT_RESPONSE_LIMIT), self._count
        return bytes(self._done(name, all_words, (), None, self._count)[0])

    def close(self) -> None:
        """Wipes and frees what the handle holds. A second call does nothing."""
        self._call("free")

    def __enter__(self: Self) -> Self:
        return self

    def __exit__(self, *_: object) -> None:
        self.close()


class Lasting(Handle):
    """A handle that lasts longer than one command."""

    def reset(self) -> None:
        """Drops the operation or command in progress, and what is selected or pending at a card.

        - A card keeps its data objects and the plans that wait.
        - A session keeps these and what `heard` returns, and records on.
        - A terminal drops its last answer too, and keeps its limit. Reset the card too.
        - A `T1` drops its last response and its fault, and keeps its settings. Reset the card too.
        """
        self._call("reset")


class Planned(Lasting):
    """A handle of a card, which answers TPDUs by plans."""

    def plan(self, steps: str, cut: int = 256) -> None:
        """Adds a plan: how the card answers one more of the TPDUs to come, in turn.

        `steps` are its procedure bytes: `n` (NULL), `o` (one byte), `a` (all bytes). If no bytes
        are left, `o` and `a` are skipped. After the last letter all bytes that are left move. If
        the card refuses the header, none do. `cut`, 1 to 256, is the most bytes that a status 61XX
        announces. Without a plan the card answers as with "" and 256.

        The next operation that a session carries out drops the plans that it leaves. Plans are not
        for `Card.apdu`.

        Errors, after which nothing has changed:
        - CallError, GT_ARGUMENT: another letter, or a cut of 0 or above 256.
        - ValueError: `cut` is below 0 or above 65,535, or `steps` is not ASCII or has a NUL.
        - CallError, GT_STATE: an `OwnCard` speaks T=1.
        - CallError, GT_PLANS: 1,048,576 plans wait.
        - OutOfMemory: memory ran out.
        """
        if "\0" in steps:
            raise ValueError("a NUL character in the steps of a plan")
        self._call("plan", str.encode(steps, "ascii"), within(cut, 0, 0xFFFF, "a cut"))
