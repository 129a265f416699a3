"""What a card sends: statuses, answers, data objects, answers to reset and PPS responses."""

import enum
from dataclasses import dataclass
from typing import Any, NamedTuple, Optional

from ._library import ffi, lib
from .errors import checked
from .handle import Bytes, copied, plain, readable, shown, tag_number, within, writable

Byte = Optional[int]


class Status(int):
    """A status word, as 0x9000.

    >>> from galliumtoad import Status
    >>> Status(0x6A82), Status(0x6A82).is_ok, Status(0x6A82).text
    (Status(0x6A82), False, 'file or application not found')
    """

    @property
    def is_ok(self) -> bool:
        """Whether it is 9000, normal processing. 61XX is not: a response waits."""
        return self == 0x9000

    def words(self, cla: int = 0, ins: int = 0) -> str:
        """What it means after a command with this CLA and INS (ISO/IEC 7816-4, 5.1.3). Both are 0
        if the command is not known. CLA A0 is that of a SIM card, which has its own statuses.

        Raises `ValueError` for a number below 0 or above 0xFFFF, or a CLA or INS that is no byte.

        >>> Status(0x63C2).words(0x00, 0x20)
        'a warning: 2 tries are left'
        """
        to, sw = ffi.new("char[]", lib.GT_WORDS_ROOM), within(int(self), 0, 0xFFFF, "a status")
        return str(ffi.unpack(to, lib.gt_status_words(*bytes((cla, ins)), sw, to, len(to))), "utf8")

    @property
    def text(self) -> str:
        """What it means, if its command is not known: `words()`."""
        return self.words()

    def __repr__(self) -> str:
        return f"Status(0x{int(self):04X})"


class Object(NamedTuple):
    """A data object, whose `tag` is the number of its one to three bytes, as 0x5F20.

    `level`, 1 to 16, is 1 outside of any other, and one more in each template. `is_constructed` is
    whether its tag is that of a template, whose value is a list of objects. `place` is the index of
    its first byte. `encoded` is its tag, length and value as they were. Its `repr` hides `encoded`
    and `value`.
    """

    tag: int
    level: int
    is_constructed: bool
    place: int
    encoded: bytes
    value: bytes

    def __repr__(self) -> str:
        return shown(self)


def _object(found: Any, data: bytes) -> Object:
    """Returns the object that the library found in the data."""
    encoded = data[found.place : found.place + found.size]
    value = data[found.value : found.value + found.length]
    return Object(found.tag, found.level, bool(found.constructed), found.place, encoded, value)


def objects(data: Bytes) -> list[Object]:
    """Returns all objects of a list, a template before the objects in it (EMV Book 3, Annex B).

    Padding, 00 before, between and after objects, is skipped. Beside a copy and the result, the
    call takes 40 bytes of memory for each byte. Raises `ObjectsError` if the bytes are not a list
    of at most 16 levels, with the first fault and the place of the innermost object at fault.

    >>> import galliumtoad
    >>> [(hex(it.tag), it.level, it.value.hex()) for it in
    ...  galliumtoad.objects(bytes.fromhex("6F0584034A4F45"))]
    [('0x6f', 1, '84034a4f45'), ('0x84', 2, '4a4f45')]
    """
    kept, count, place = plain(data), ffi.new("size_t *"), ffi.new("size_t *")
    found = ffi.new("gt_object[]", len(kept))
    checked(lib.gt_objects(kept, len(kept), found, len(found), count, place), place)
    return [_object(it, kept) for it in found[0 : count[0]]]


def find(data: Bytes, *path: int) -> Optional[Object]:
    """Returns the first object whose tags, from level 1 to its own, are this path, or None. A path
    of no tags finds none.

    Errors:
    - CallError, GT_ARGUMENT: a step is not a tag, whatever the bytes are.
    - ValueError: a step is below 0 or above 0xFFFFFF.
    - ObjectsError: as `objects`, wherever the path leads.

    >>> import galliumtoad
    >>> galliumtoad.find(bytes.fromhex("6F0584034A4F45"), 0x6F, 0x84).value
    b'JOE'
    """
    kept, found, place = plain(data), ffi.new("gt_object *"), ffi.new("size_t *")
    code = lib.gt_find(kept, len(kept), [*map(tag_number, path)], len(path), found, place)
    return None if checked(code, place, [lib.GT_NOT_FOUND]) else _object(found, kept)


def head(tag: int, length: int) -> bytes:
    """Returns how an object begins: its tag, and the length of its value in the shortest form, 2 to
    6 bytes.

    Raises `CallError`, GT_ARGUMENT, if no tag has this number. Raises `ValueError` for a tag not
    from 0 to 0xFFFFFF, or a length not from 0 to 65,535.

    >>> import galliumtoad
    >>> galliumtoad.head(0x5F20, 200).hex()
    '5f2081c8'
    """
    made, count = writable(6)
    checked(lib.gt_head(tag_number(tag), within(length, 0, 0xFFFF, "a length"), made, count))
    return copied(made, count)


class Refused(Exception):
    """The card's `status` is another than 9000. The text is its digits and what it means."""

    def __init__(self, status: Status) -> None:
        super().__init__(status)
        self.status = status

    def __str__(self) -> str:
        return f"{self.status:04X} {self.status.text}"


class Answer(NamedTuple):
    """The status of a card, and its data. A status that refuses a command is an answer too. Its
    `repr` hides the data.

    >>> from galliumtoad import Answer, Status
    >>> answer = Answer(Status(0x9000), bytes.fromhex("5F20034A4F45"))
    >>> answer, answer.raise_for_status().object(0x5F20).value
    (Answer(status=Status(0x9000), data=<6 bytes>), b'JOE')
    """

    status: Status
    data: bytes

    def raise_for_status(self) -> "Answer":
        """Returns the answer if its status is 9000. Raises `Refused` for every other status."""
        if not self.status.is_ok:
            raise Refused(self.status)
        return self

    def object(self, tag: int) -> Optional[Object]:
        """Returns the object if the data are exactly one, with this tag; else None. Some cards
        answer a get with the value alone.

        Raises `ValueError` for a tag below 0 or above 0xFFFFFF.
        """
        is_it = lib.gt_is_object(*readable(self.data), tag_number(tag))
        return find(self.data, tag) if is_it else None

    def __repr__(self) -> str:
        return shown(self)


class Edc(enum.IntEnum):
    """The error detection code of blocks at T=1, by the number of its bytes, or RESERVED."""

    RESERVED, LRC, CRC = range(3)


class AtrT1(NamedTuple):
    """What an answer to reset says of T=1, by the first TA, TB and TC for T=1 from TA3, TB3 and TC3
    on: the fields of `gt_atr_t1` in the header. For a missing one the standard's default holds."""

    ifsc: int
    edc: Edc
    bwi: int
    cwi: int
    cwt_etu: int
    bwt_etu: int
    bgt_etu: int
    bwt_cycles: int


@dataclass(frozen=True, init=False)
class Atr:
    """What an answer to reset says (ISO/IEC 7816-3, clause 8): the fields of `gt_atr` in the
    header. For a missing character the standard's default holds. A reserved code of Fi, Di, WI or
    the classes gives 0 for these. `protocols` are in the order offered. `historical` has the bytes,
    not their place.

    Raises `AtrError` with the place of the first fault if the bytes are not an answer to reset.

    >>> from galliumtoad import Atr
    >>> Atr(bytes.fromhex("3B0214"))
    Traceback (most recent call last):
    galliumtoad.errors.AtrError: answer to reset cut at byte 3
    >>> atr = Atr(bytes.fromhex("3B02144E"))
    >>> atr.protocols, atr.fi, atr.di, atr.historical.hex()
    ((0,), 372, 1, '144e')
    """

    length: int
    historical: bytes
    historical_count: int
    category: int
    convention: int
    protocol_count: int
    protocols: tuple[int, ...]
    names_15: bool
    rate_code: int
    di: int
    extra_guard_time: int
    waiting_integer: int
    specific: bool
    specific_t: int
    can_change: bool
    implicit: bool
    clock_stop: int
    classes: int
    fi: int
    max_khz: int
    guard_etu: int
    guard_etu_t1: int
    guard_indicated: int
    waiting_time: int
    t1: AtrT1

    def __init__(self, data: Bytes) -> None:
        kept, atr, place = plain(data), ffi.new("gt_atr *"), ffi.new("size_t *")
        checked(lib.gt_atr_read(kept, len(kept), atr, place), place)
        start, count = atr.historical, atr.historical_count
        vars(self).update(_numbers(Atr, atr), historical=kept[start : start + count])
        protocols = tuple(atr.protocols[0 : atr.protocol_count])
        vars(self).update(protocols=protocols, t1=AtrT1(**_numbers(AtrT1, atr.t1)))


def _numbers(kind: Any, record: Any) -> dict[str, Any]:
    """Returns the numbers of a record of the library, each of the type of its field."""
    types = {name: it for name, it in kind.__annotations__.items() if it in (int, bool, Edc)}
    return {name: it(getattr(record, name)) for name, it in types.items()}


class Pps:
    """A terminal's PPS request (ISO/IEC 7816-3, clause 9) for protocol `t`, 0 to 15.

    `pps1` to `pps3` are numbers from 0 to 255, or None, the default, for a byte that is not sent.
    `pps1` has the codes of Fi and Di, as TA1. Raises `ValueError` for any other number. `request`
    has the bytes to send, 3 to 6.

    >>> from galliumtoad import Pps
    >>> pps = Pps(0, pps1=0x95)
    >>> pps.request.hex(), pps.is_agreed(bytes.fromhex("FF10957A"))
    ('ff10957a', True)
    """

    def __init__(self, t: int, pps1: Byte = None, pps2: Byte = None, pps3: Byte = None) -> None:
        made, count = writable(lib.GT_PPS_LIMIT)
        given = (pps1, pps2, pps3)
        asked = (lib.GT_ABSENT if it is None else within(it, 0, 255, "a PPS byte") for it in given)
        checked(lib.gt_pps_request(within(t, 0, 15, "T"), *asked, made, count))
        self.request = copied(made, count)

    def is_agreed(self, response: Bytes) -> bool:
        """Whether the card's response accepts the request (9.3).

        It does if it names the same protocol, and each of PPS1 to PPS3 is as requested or absent.
        The card does not accept an absent one: without PPS1, Fi is 372 and Di 1. It has accepted
        all if the response equals `request`. If the result is False, reset the card or give it up.
        Raises `PpsError` with the first fault if the bytes are not a response.
        """
        return checked(lib.gt_pps_agreed(*readable(self.request), *readable(response))) == 1
