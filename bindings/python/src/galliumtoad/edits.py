"""Changes of bytes: of the data of a response, of characters at T=0, and of blocks at T=1."""

from functools import reduce
from typing import Any

NULL = b"\x60"
ALL_BITS = range(8)


def flipped(data: bytes, *bits: int) -> bytes:
    """Flips bits of the data; bit 0 is the lowest of the first byte.

    >>> flipped(bytes.fromhex("5003"), 0, 15).hex()
    '5183'
    """
    mask = sum(1 << it for it in bits if it < 8 * len(data))
    return (int.from_bytes(data, "little") ^ mask).to_bytes(len(data), "little")


def tag_size(data: bytes) -> int:
    """How many bytes the tag of an object takes: one or two."""
    has_more = any(it & 31 == 31 for it in data[:1])
    return 2 if has_more else 1


def head_size(data: bytes) -> int:
    """How many bytes the tag and the length of an object take.

    >>> head_size(bytes.fromhex("5F2081FA"))
    4
    """
    size = tag_size(data) + 1
    return size + sum(it & 127 for it in data[size - 1 : size] if it > 127)


def wrong_tag(data: bytes) -> bytes:
    """An object with another tag."""
    return flipped(data, 8 * tag_size(data) - 8)


def other_value(data: bytes) -> bytes:
    """An object with another value."""
    return flipped(data, *range(8 * head_size(data), 8 * len(data)))


def inserted(sent: bytes, at: int, new: bytes) -> bytes:
    """Bytes with others before the one at this place. The first place is 1."""
    return sent[: at - 1] + new + sent[at - 1 :] if at <= len(sent) else sent


def dropped(sent: bytes, at: int) -> bytes:
    """Bytes without the one at this place."""
    return sent[: at - 1] + sent[at:]


def replaced(values: tuple[Any, ...], at: int, new: object) -> tuple[Any, ...]:
    """Values with another one at this place, if there is such a place. The first place is 1.

    >>> replaced((0, 0), 2, 5), replaced((0, 0), 3, 5)
    ((0, 5), (0, 0))
    """
    if at > len(values):
        return values
    return (*values[: at - 1], new, *values[at:])


def with_procedure(sent: bytes, new: bytes) -> bytes:
    """Characters with another procedure byte first. A status alone has none, and keeps its
    bytes."""
    is_status = sent.hex()[:1] in "69"
    return new + (sent if is_status else sent[1:])


def one_by_one(sent: bytes, count: int) -> bytes:
    """INS, data and a status. The first `count` bytes of data come alone, each after the
    complement of INS, and the rest after INS.

    >>> one_by_one(bytes.fromhex("CA4142439000"), 2).hex()
    '35413542ca439000'
    """
    ins = sent[:1]
    data = sent[1:-2]
    status = sent[-2:]
    if not data:
        return sent
    alone = b"".join(flipped(ins, *ALL_BITS) + bytes([it]) for it in data[:count])
    rest = data[count:]
    return alone + (ins + rest if rest else b"") + status


def after_nulls(sent: bytes) -> bytes:
    """INS, data and a status, byte by byte: a NULL comes before each procedure byte, and before
    the status.

    >>> after_nulls(bytes.fromhex("CA41429000")).hex()
    '603541603542609000'
    """
    ins = sent[:1]
    data = sent[1:-2]
    status = sent[-2:]
    if not data and ins != status[:1]:
        return sent
    alone = b"".join(NULL + flipped(ins, *ALL_BITS) + bytes([it]) for it in data)
    return alone + NULL + status


def block(nad: int, pcb: int, field: bytes) -> bytes:
    """A block of T=1 with its LRC.

    >>> block(0, 0xC1, b"\\xFE").hex()
    '00c101fe3e'
    """
    return with_lrc(bytes([nad, pcb, len(field)]) + field)


def with_lrc(front: bytes) -> bytes:
    """Bytes, and their LRC after them."""
    return front + bytes([reduce(lambda a, b: a ^ b, front)])


def with_other(sent: bytes, place: int, new: int) -> bytes:
    """A block with another byte at a place from 0 on, and a right LRC.

    >>> with_other(block(0, 0, b"\\x90\\x00"), 1, 0x40) == block(0, 0x40, b"\\x90\\x00")
    True
    """
    if not sent:
        return sent
    front = bytearray(sent[:-1])
    front[place] = new
    return with_lrc(bytes(front))


def with_other_number(sent: bytes) -> bytes:
    """An I-block with the other N(S), or an R-block with the other N(R)."""
    if not sent:
        return sent
    bit = 0x10 if sent[1] & 0x80 else 0x40
    return with_other(sent, 1, sent[1] ^ bit)


def with_wrong_lrc(sent: bytes) -> bytes:
    """A block whose LRC is wrong."""
    return sent[:-1] + flipped(sent[-1:], *ALL_BITS)
