"""The loop of an operation over a transport, in a package that loads the library. It does what the
extension module `_operation` does, which needs a compiler."""

from typing import Any, Callable, Union

from ._library import ffi, lib

IN_PROGRESS = "another call of this handle is in progress"
SELECT, GET, PUT, SEND = range(4)
_ROOM = max(lib.GT_APDU_LIMIT, lib.GT_TPDU_LIMIT)
_BYTES = ffi.typeof("uint8_t[]")


def _called(calls: list[str], function: Callable[..., int], *words: Any) -> int:
    """Calls a function of the library, unless another call of the handle is in progress."""
    try:
        calls.append("")
        if len(calls) > 1:
            raise RuntimeError(IN_PROGRESS)
        return function(*words)
    finally:
        calls.pop()


def _readable(data: Any, plain: Callable[[Any], bytes]) -> tuple[Any, int]:
    kept = data if type(data) in (bytes, bytearray) else plain(data)
    return ffi.from_buffer(_BYTES, kept), len(kept)


def _taken(made: Any, count: int) -> bytes:
    """Copies the bytes that the library wrote, and wipes them."""
    written = ffi.buffer(made)
    data, written[:count] = written[:count], bytes(count)
    return bytes(data)


def begin(address: int, calls: list[str], plain: Callable[[Any], bytes], words: Any) -> int:
    """Begins an operation at the terminal at this address, and returns the code."""
    kind, tag, value = words
    terminal, data = ffi.cast("gt_terminal *", address), _readable(value, plain)
    if kind == GET:
        return _called(calls, lib.gt_terminal_get, terminal, tag)
    if kind == PUT:
        return _called(calls, lib.gt_terminal_put, terminal, tag, *data)
    send = lib.gt_terminal_select if kind == SELECT else lib.gt_terminal_send
    return _called(calls, send, terminal, *data)


def run(address: int, calls: list[str], plain: Callable[[Any], bytes], words: Any,
        transport: Callable[[bytes], Any], seen: list[int],
        whole: bool) -> Union[int, tuple[int, bytes]]:
    """Begins an operation, and carries it out. Returns its status and data, or the code of a fault.
    `seen` gets 0 when it has begun, then SW1 of each whole response."""
    code = begin(address, calls, plain, words)
    if code < 0:
        return code
    seen.append(0)
    terminal, made = ffi.cast("gt_terminal *", address), ffi.new(_BYTES, _ROOM)
    count, most = ffi.new("size_t *"), ffi.new("size_t *")
    due, take = ((lib.gt_terminal_apdu, lib.gt_terminal_responded) if whole
                 else (lib.gt_terminal_tpdu, lib.gt_terminal_answered))
    while (code := _called(calls, due, terminal, made, count, most)) >= 0:
        data, size = _readable(transport(_taken(made, count[0])), plain)
        code = _called(calls, take, terminal, data, size)
        if code < 0:
            return code
        if whole:
            seen.append(data[size - 2])
    return _answer(terminal, calls, count) if code == lib.GT_NOT_DUE else code


def _answer(terminal: Any, calls: list[str], count: Any) -> Union[int, tuple[int, bytes]]:
    status, room = ffi.new("uint16_t *"), lib.GT_RESPONSE_LIMIT
    made = ffi.new(_BYTES, room)
    code = _called(calls, lib.gt_terminal_answer, terminal, status, made, room, count)
    return code if code < 0 else (status[0], _taken(made, count[0]))
