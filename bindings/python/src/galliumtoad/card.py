"""`Card`, which holds data objects, and `Session`, which joins a card and a terminal."""

from typing import Any, Collection, Mapping, NamedTuple, Optional

from ._library import ffi, lib
from ._operation import GET, PUT
from .answers import Answer, Status
from .handle import Bytes, Planned, copied, plain, readable, shown, tag_number, within, writable
from .terminal import Operation, words_of

Tables = Mapping[bytes, Mapping[int, Bytes]]


class Entry(NamedTuple):
    """A data object of an application: its tag as a number, and its value, which its `repr` hides.
    No command changes a locked one."""

    tag: int
    value: bytes
    is_locked: bool

    def __repr__(self) -> str:
        return shown(self)


class Holder(Planned):
    """A handle that holds data objects: a card, or a session with its card."""

    def _aid(self, name: str, *words: int) -> Optional[bytes]:
        aid, count = writable(lib.GT_AID_LIMIT)
        is_missing = self._call(name, *words, aid, count, but=[lib.GT_NOT_FOUND])
        return None if is_missing else copied(aid, count)

    @property
    def selected(self) -> Optional[bytes]:
        """The identifier of the selected application, or None."""
        return self._aid("selected")

    @property
    def applications(self) -> list[bytes]:
        """The identifiers of all applications, in the order in which the card was built."""
        found: list[bytes] = []
        while (aid := self._aid("app_at", len(found))) is not None:
            found.append(aid)
        return found

    def entries(self, aid: Bytes) -> list[Entry]:
        """Returns the data objects of an application, in the order in which they were first stored.

        Raises `KeyError` if the card has no application with exactly this identifier.
        """
        places = {it.hex(): place for place, it in enumerate(self.applications)}
        app, found = places[plain(aid).hex()], list[Entry]()
        tag, locked, room = ffi.new("uint32_t *"), ffi.new("int32_t *"), lib.GT_VALUE_LIMIT
        value, count = writable(room)
        words = (tag, locked, value, room, count)
        while not self._call("entry_at", app, len(found), *words, but=[lib.GT_NOT_FOUND]):
            found.append(Entry(tag[0], copied(value, count), bool(locked[0])))
        return found


class Card(Holder):
    """A card with these applications and their data objects. `locked` lists the pairs of identifier
    and tag that no command changes; a pair of no object here has no effect. Nothing is selected.

    `tpdu` is a transport for a `Terminal`. A line passes characters by `receive_bytes` and
    `send_bytes`.

    A card holds up to 8 applications, each with up to 64 data objects of up to 8,192 bytes.
    Errors, after which there is no card:
    - CallError, GT_ARGUMENT: an identifier not of 5 to 16 bytes, or a tag that GET DATA can't name.
    - BuildError: too many applications or objects, too long a value, or a template whose value is
      not a list of objects, or has more than 15 levels.
    - ValueError: a tag below 0 or above 0xFFFFFF.
    - OutOfMemory: memory ran out.

    >>> from galliumtoad import Card
    >>> aid = bytes.fromhex("A0000000031010")
    >>> with Card({aid: {0x5F20: b"JOE"}}) as card:
    ...     card.tpdu(bytes.fromhex("00A4040007A0000000031010")).hex()
    '610b'
    """

    def __init__(self, tables: Tables, locked: Collection[tuple[bytes, int]] = ()) -> None:
        pairs = {(plain(aid), tag_number(tag)) for aid, tag in locked}
        calls: list[tuple[Any, ...]] = [("new",)]
        for aid, values in dict(tables).items():
            calls.append(("app", *readable(aid)))
            for tag, value in dict(values).items():
                named = plain(aid), tag_number(tag)
                calls.append(("object", named[1], *readable(value), named in pairs))
        super().__init__("card", *calls, ("finish",))

    def tpdu(self, tpdu: Bytes) -> bytes:
        """Carries out a whole TPDU under the next plan. Returns the card's data and SW1 SW2.

        Errors:
        - CallError, GT_STATE: a TPDU is in progress by characters; nothing has changed.
        - TransportError, GT_NO_TPDU: the bytes are not a TPDU; nothing has changed.
        - TransportError, GT_WANTS_DATA or GT_SENDS_DATA: the TPDU lacks data that the card takes,
          or asks for none of those that it sends. The card is reset, and the plan is used up.
        - OutOfMemory: memory ran out; nothing has changed.
        """
        return self._copied("tpdu", readable(tpdu), room=lib.GT_ANSWER_LIMIT)

    def apdu(self, command: Bytes) -> bytes:
        """Carries out a whole command, as a card at T=1, under no plan. Returns at most Le bytes of
        data, none without Le, and SW1 SW2; 61XX announces the rest.

        The card answers 6700, and nothing changes, to four bytes or more whose lengths fit no case
        of a command. It does so to SELECT and PUT DATA in case 2, and to GET DATA and GET RESPONSE
        in any other, whatever CLA is.

        Errors, after which nothing has changed:
        - CallError, GT_STATE: a TPDU is in progress by characters.
        - CommandError: there are fewer than four bytes; or INS is 6X or 9X, and the lengths fit.
        - OutOfMemory: memory ran out.
        """
        return self._copied("apdu", readable(command), room=lib.GT_ANSWER_LIMIT)

    def receive_bytes(self, data: Bytes) -> int:
        """Takes characters of the terminal while the card listens. Returns the number taken: if it
        is less than that of `data`, the card has characters to send."""
        taken = ffi.new("size_t *")
        self._call("receive_bytes", *readable(data), taken, but=[lib.GT_NOT_LISTENING])
        return int(taken[0])

    def send_bytes(self, room: int = 1024) -> bytes:
        """Returns the card's next characters, or no bytes if it listens. They are at most `room`,
        1,024 by default, and at most 16,384. They count as sent: a put is stored with its second
        status byte.

        Raises `ValueError` for a room below 0 or above 1,073,741,824.
        """
        return self._copied("send_bytes", room=within(room, 0, 1 << 30, "the room"))


class Character(NamedTuple):
    """A character that went over the line. `is_card` is whether the card sent it."""

    is_card: bool
    byte: int


class Session(Holder):
    """Takes a card, resets it, and carries out operations with it. The card's plans are dropped.

    The card's own handle is empty from then on: `end` returns a new one. Errors, after which there
    is no session, and the card is as before:
    - TypeError: it is not a `Card`.
    - CallError, GT_EMPTY: the card is closed, or a session took it before.
    - RuntimeError: another call of the card is in progress.

    >>> from galliumtoad import Card, Get, Select, Session
    >>> aid = bytes.fromhex("A0000000031010")
    >>> with Session(Card({aid: {0x5F20: b"JOE"}})) as session:
    ...     session.run(Select(aid)).status, session.run(Get(0x5F20)).data.hex()
    (Status(0x9000), '5f20034a4f45')
    """

    def __init__(self, card: Card) -> None:
        if not isinstance(card, Card):
            raise TypeError(f"{type(card).__name__} is not a card")
        with card._alone():
            super().__init__("session", ("start", card._handle))

    def run(self, operation: Operation) -> Answer:
        """Carries out an operation, and returns the card's answer, whatever its status. A put has
        no data.

        Errors, after which nothing was sent:
        - CallError, GT_ARGUMENT: an identifier not of 5 to 16 bytes, or a tag that no command can
          name. Or the data of a `Send` move the other way at the card.
        - ValueError: a tag below 0 or above 0xFFFFFF.
        - CallError, GT_BUSY: a chain of `Send` is pending. `Send` never gets it.
        - CommandError: the bytes of `Send` are not a command.
        - TypeError: it is not an operation.
        - OutOfMemory: memory ran out. After another `MemoryError` it is unknown what was sent.
        """
        kind, tag, value = words_of(operation)
        tags = (tag,) if kind in (GET, PUT) else ()
        values = () if kind == GET else readable(value)
        status, room = ffi.new("uint16_t *"), lib.GT_RESPONSE_LIMIT
        data, count = writable(room)
        answer = () if kind == PUT else (data, room, count)
        self._call(type(operation).__name__.lower(), *tags, *values, status, *answer)
        return Answer(Status(status[0]), copied(data, count))

    @property
    def is_idle(self) -> bool:
        """Whether an operation other than `Send` may begin: no chain is pending at the card."""
        return self._call("idle") == 1

    def listen(self) -> None:
        """Records the characters of each later operation, for `heard`.

        Earlier records are dropped. Recording takes memory and time in each operation.
        """
        self._call("listen")

    def heard(self) -> list[Character]:
        """Returns all characters of the last operation that was carried out since `listen`, none
        before the first.

        Errors:
        - CallError, GT_STATE: `listen` was not called.
        - OutOfMemory: memory ran out in the operation, so some characters are lost.
        """
        count = ffi.new("size_t *")
        self._call("heard", ffi.NULL, 0, count, but=[lib.GT_BUFFER])
        line = ffi.new("gt_character[]", count[0])
        self._call("heard", line, count[0], count)
        return [Character(getattr(it, "from") == lib.GT_CARD, it.byte) for it in line]

    def end(self) -> Card:
        """Ends the session, resets its card and returns it. Data objects stay. Plans that are left
        and the record are dropped, and the session's handle is empty."""
        card = Card.__new__(Card)
        Holder.__init__(card, "card")
        self._call("end", card._handle)
        return card
