"""Faults of a card, one a line: their words, and when each strikes."""

import random
import re
from typing import Any, Callable, Iterable, NamedTuple, Optional

from .edits import (NULL, after_nulls, block, dropped, flipped, inserted, one_by_one, other_value,
                    replaced, with_other, with_other_number, with_procedure, with_wrong_lrc,
                    wrong_tag)
from .mistakes import CONTROLS, Mistake

# Where a fault can happen.
ANYWHERE = "anywhere"
LINE = "a line"
T0 = "a line at T=0"
T1 = "a line at T=1"
ECHO = "an echo"
MARKS = "a line with marks"
# What happens: a command or TPDU, a block of the card, a reset, a PPS request.
COMMAND = "a command"
BLOCK = "a block"
RESET = "a reset"
PPS = "a PPS request"
EVENT_PLACES = {COMMAND: ANYWHERE, BLOCK: T1, RESET: LINE, PPS: LINE}
GET_RESPONSE = b"\xC0"
OK = b"\x90\x00"
MORE = b"\x61\x10"
DEFAULT_BAUD = 9600


class Time(NamedTuple):
    """A time of elementary time units and seconds."""

    etu: int
    more: float

    def seconds(self, etu: float = 1 / DEFAULT_BAUD) -> float:
        """The time if a unit takes `etu` seconds.

        >>> Time(9600, 0.5).seconds(), time_of("9600etu+0.5s"), time_of("2s")
        (1.5, Time(etu=9600, more=0.5), Time(etu=0, more=2.0))
        """
        return self.etu * etu + self.more


NO_TIME = Time(0, 0.0)


def time_of(text: str) -> Time:
    """Reads the form TIME."""
    units, _, rest = text.lower().rpartition("etu")
    return Time(int(units or 0), float(rest.strip("+s") or 0))


# The forms of the words in capitals below, and what reads them.
FORMS: dict[str, tuple[str, Callable[[str], Any]]] = {
    "N": ("[0-9]{1,7}", int), "PLACE": ("[1-9][0-9]{,6}", int),
    "CHANCE": (r"0?\.[0-9]+|1|0", float), "XX": ("[0-9A-F]{2}", bytes.fromhex),
    "BYTE": ("25[0-5]|2[0-4][0-9]|1?[0-9]?[0-9]", int), "SW": ("[69][0-9A-F]{3}", bytes.fromhex),
    "HEX": ("(?:[0-9A-F]{2})+", bytes.fromhex),
    "TIME": (r"[0-9]{1,7}etu(?:\+[0-9]{1,7}(?:\.[0-9]+)?s)?|[0-9]{1,7}(?:\.[0-9]+)?s", time_of),
}
# When a fault strikes: at which event, and at which of these.
WHENS: dict[str, tuple[str, Callable[..., Any]]] = {
    "command N": (COMMAND, lambda now, number: (now.count, now.part) == (number, 1)),
    "command N part PLACE": (
        COMMAND, lambda now, number, part: (now.count, now.part) == (number, part)),
    **dict.fromkeys(["every XX", "INS XX once"], (COMMAND, lambda now, ins: now.ins == ins)),
    "after N": (COMMAND, lambda now, number: now.count > number),
    "p CHANCE": (COMMAND, lambda now, chance: now.chance() < chance),
    "command N block PLACE": (
        BLOCK, lambda now, number, place: (now.block_of, now.block) == (number, place)),
    "block PLACE": (BLOCK, lambda now, place: now.blocks == place),
    "reset PLACE": (RESET, lambda now, place: now.resets == place),
    "every reset": (RESET, lambda now: True),
    "pps": (PPS, lambda now: True),
}
DATA = ("data HEX", "cut N", "add HEX", "flip N", "wrong tag", "other value")
# Of the characters that the card sends: the time before each, how often it comes with wrong parity
# first, and the place where the card leaves for good.
TIMES = ("byte PLACE late TIME", "slow TIME")
PARITIES = ("byte PLACE parity", "byte PLACE parity PLACE")
LEAVES = "byte PLACE gone"
SIGNAL = "signal PLACE"  # of an echo
NOT_BYTES = (*TIMES, *PARITIES, LEAVES, "early")
SILENT = ("mute", "power off")
REQUESTS = ("wtx BYTE", "wtx BYTE PLACE times", "ifs BYTE", "abort")
# Of a TPDU at T=0: what changes its first procedure byte, and what only the end of it.
FIRST = ("procedure XX", "nulls N")
LAST = ("sw1 alone", "then HEX")
ALONE = ("complement", "complement PLACE", "null each")
# Where a fault can happen, and what it makes of what the card sends, or True for anything else.
KINDS: dict[str, tuple[str, Callable[..., Any]]] = {
    "data HEX": (ANYWHERE, lambda data, new: new),
    "cut N": (ANYWHERE, lambda data, count: data[: max(len(data) - count, 0)]),
    "add HEX": (ANYWHERE, lambda data, new: data + new),
    "flip N": (ANYWHERE, flipped),
    "wrong tag": (ANYWHERE, wrong_tag),
    "other value": (ANYWHERE, other_value),
    "status SW": (ANYWHERE, lambda status, new: new),
    "refuse SW": (ANYWHERE, lambda _, status: status), "forget": (ANYWHERE, lambda _: OK),
    "delay TIME": (ANYWHERE, lambda pauses, time: [*pauses, time]),
    **dict.fromkeys([*SILENT, "reset", "twice", "6C again", "61 without end"],
                    (ANYWHERE, lambda _: True)),
    "byte PLACE flip": (LINE, lambda sent, at: flipped(sent, 8 * at - 8)),
    "byte PLACE drop": (LINE, dropped),
    "byte PLACE insert XX": (LINE, inserted),
    "byte PLACE late TIME": (LINE, replaced),
    "slow TIME": (LINE, lambda times, time: (*times[:1], *[time] * len(times[1:]))),
    LEAVES: (LINE, lambda size, at: min(size, at - 1)),
    "then HEX": (LINE, lambda sent, new: sent + new),
    "early": (LINE, lambda _: True),
    "byte PLACE parity": (MARKS, lambda wrong, at: replaced(wrong, at, -1)),
    "byte PLACE parity PLACE": (MARKS, replaced),
    SIGNAL: (MARKS, lambda count, more: count + more),
    "early status": (T0, lambda _: True),
    "procedure XX": (T0, with_procedure),
    "nulls N": (T0, lambda sent, count: NULL * count + sent),
    "sw1 alone": (T0, lambda sent: sent[:-1]),
    # without bytes to send the card takes data, this number of bytes alone
    "complement": (T0, lambda sent: one_by_one(sent, 1) if sent else 1),
    "complement PLACE": (T0, lambda sent, count: one_by_one(sent, count) if sent else count),
    "null each": (T0, lambda sent: after_nulls(sent) if sent else -1),
    # the card's requests (ISO/IEC 7816-3, 11.3.2.2)
    "wtx BYTE": (T1, lambda asks, value: [*asks, block(0, 0xC3, bytes([value]))]),
    "wtx BYTE PLACE times": (
        T1, lambda asks, value, count: [*asks, *[block(0, 0xC3, bytes([value]))] * count]),
    "ifs BYTE": (T1, lambda asks, value: [*asks, block(0, 0xC1, bytes([value]))]),
    "abort": (T1, lambda asks: [*asks, block(0, 0xC2, b"")]),
    "nad": (T1, lambda sent: with_other(sent, 0, 0x21)),
    "pcb XX": (T1, lambda sent, new: with_other(sent, 1, new[0])),
    "len XX": (T1, lambda sent, new: with_other(sent, 2, new[0])),
    "number": (T1, with_other_number),
    "lrc": (T1, with_wrong_lrc),
    "instead HEX": (T1, lambda sent, new: new),
    "double": (T1, lambda sent: sent + sent), "lose": (T1, lambda sent: b""),
    # in place of its block, which it has not taken
    "ask XX": (T1, lambda asks, new: new),
    **dict.fromkeys(["wrong echo", "wrong echo of data"], (ECHO, lambda sent: flipped(sent, 0))),
}
ASKS = "ask XX"
# What changes the bytes of a line, and those of a block.
BYTES = tuple(it for it in KINDS if KINDS[it][0] == LINE and it not in (*NOT_BYTES, *LAST))
BLOCKS = ("nad", "pcb XX", "len XX", "number", "lrc", "instead HEX", "double", "lose", "then HEX")
# What can happen at an event that is no command.
AT_EVENTS = {
    RESET: {*DATA[:4], *SILENT, "delay TIME", *BYTES, *NOT_BYTES, "then HEX"},
    PPS: {*DATA[:4], *SILENT, "delay TIME", *BYTES, *NOT_BYTES, "then HEX"} - {"early"},
    BLOCK: {*SILENT, "delay TIME", *BYTES, *NOT_BYTES, *BLOCKS, *REQUESTS, ASKS} - {"early"},
}


class Gone(Exception):
    """The card does not answer any more: it is `mute`, its `power off`, or it is out of the
    reader."""


class Fault(NamedTuple):
    """A line of a file: its place and text, and what it is in the tables above."""
    text: str
    when: str
    numbers: list[Any]
    kind: str
    values: list[Any]

    @property
    def event(self) -> str:
        return WHENS[self.when][0]

    @property
    def place(self) -> str:
        """Where it can happen."""
        own = KINDS[self.kind][0]
        return EVENT_PLACES[self.event] if own == ANYWHERE else own

    def edit(self, value: Any) -> Any:
        """What it makes of a value."""
        return KINDS[self.kind][1](value, *self.values)


def matched(table: Iterable[str], words: str, wrong: str) -> tuple[str, list[Any]]:
    """Returns the entry of a table that the words fit, and its values. Raises `Mistake`."""
    for entry in table:
        forms = [FORMS.get(it, (it, None)) for it in entry.split()]
        if found := re.fullmatch(" ".join(f"({it})" for it, _ in forms), words.strip(), re.I):
            return entry, [reads(it) for (_, reads), it in zip(forms, found.groups()) if reads]
    raise Mistake(f"{wrong} is one of: {', '.join(table)}")


def read_line(words: str, place: str) -> Fault:
    """Reads WHEN, WHAT. Raises `Mistake`."""
    at, _, does = words.partition(",")
    wrong = f"{place}not WHEN, WHAT of a fault: {words}\n"
    when, numbers = matched(WHENS, at, f"{wrong}WHEN")
    kind, values = matched(KINDS, does, f"{wrong}WHAT")
    it = Fault(place + words, when, numbers, kind, values)
    if kind not in AT_EVENTS.get(it.event, KINDS) or kind == "early" and it.event != RESET:
        raise Mistake(f"{place}not at {it.event}: {words}")
    return it


def read(text: str, name: str = "faults") -> list[Fault]:
    """Reads the lines of a file: WHEN, WHAT. Raises `Mistake` for the first one that is wrong.

    >>> [(it.text, it.kind, it.values) for it in read("# one\\nINS CA once, cut 3")]
    [('faults:2: INS CA once, cut 3', 'cut N', [3])]"""
    lines = enumerate(map(str.strip, text.splitlines()), 1)
    return [read_line(words, f"{name}:{line}: ") for line, words in lines
            if words[:1] not in ("", "#")]


class Faults:
    """Which faults strike, a line each for `tell`. None does, and no command counts, before one
    that begins with the bytes `since`, as far as they are known. GET RESPONSE, or again after 6CXX,
    is the same command. What changes data waits while a response without data is 61XX or 6CXX."""

    def __init__(self, found: Iterable[Fault] = (), seed: int = 0,
                 tell: Callable[[str], None] = print, since: bytes = b"") -> None:
        self.all = list(found)
        self.tell = tell
        self.since = since
        self.chance = random.Random(seed).random
        self.count = 0  # of commands
        self.part = 0  # of what belongs to a command
        self.header = b""
        self.ins = b""
        self.was_6c = False
        self.resets = 0
        self.begin_blocks()
        self.due = list[Fault]()  # those of the command
        self.at_once = list[Fault]()  # those of another event
        self.struck = list[str]()
        self.pauses = list[Time]()
        self.gone: Optional[Gone] = None  # from then on the card is silent until a reset
        self.is_removed = False  # .. and also after one

    def check(self, places: Iterable[str], where: str) -> None:
        """Raises `Mistake` for the faults that can't happen at these places."""
        if wrong := [it for it in self.all if it.place not in (ANYWHERE, *places)]:
            raise Mistake("\n".join(f"{it.text}: this needs {it.place}, and {where} has none"
                                    for it in wrong))

    def chosen(self, event: str) -> list[Fault]:
        """The faults of an event that has just happened."""
        return [it for it in self.all if it.event == event and it not in self.due
                and WHENS[it.when][1](self, *it.numbers)]

    def is_before(self, header: bytes) -> bool:
        """Whether faults do not count yet."""
        return header[: len(self.since)] != self.since[: len(header)]

    def is_same(self, header: bytes) -> bool:
        """Whether a header belongs to the command before it."""
        return header[1:2] == GET_RESPONSE or header[:4] == self.header and self.was_6c

    def begin(self, header: bytes, reset: Callable[[], None] = lambda: None) -> Optional[bytes]:
        """Chooses the faults of a TPDU or command, by its header or all of it. Calls `reset` if one
        resets the card. Returns the answer of a card that does not carry it out, or None."""
        if self.is_before(header):
            self.due = []
            return None
        self.since = b""
        self.ins = header[1:2]
        le = sum(header[4:5])
        self.part += 1
        if not self.is_same(header):
            self.begin_command(header)
        self.due = [it for it in self.due if it.kind in DATA or it.place == LINE]
        self.due += self.chosen(COMMAND)
        if answer := self.edited(b"", "forget", "refuse SW"):
            return bytes(answer)
        if self.edited(False, "6C again") or "6C again" in self.struck:
            return bytes([0x6C, le % 255 + 1])  # never the length that was asked for
        if "61 without end" in self.struck and self.ins == GET_RESPONSE:
            return bytes(le or 256) + MORE
        if self.edited(False, "reset"):
            reset()
        return None

    def begin_command(self, header: bytes) -> None:
        """Begins another command."""
        self.count += 1
        self.part = 1
        self.header = header[:4]
        self.due = []
        self.struck = []

    def begin_blocks(self) -> None:
        """Begins to count blocks."""
        self.blocks = 0  # since the reset
        self.block = 0  # of the command
        self.block_of = 0  # the number of that command

    def begin_reset(self) -> None:
        """Chooses the faults of the next answer to reset."""
        self.resets += 1
        self.begin_blocks()
        self.due = []
        self.struck = []
        self.at_once = self.chosen(RESET)

    def begin_pps(self) -> None:
        """Chooses the faults of a PPS response."""
        self.at_once = self.chosen(PPS)

    def begin_block(self, command: Optional[bytes]) -> None:
        """Chooses the faults of the card's next block. A command may begin with the terminal's."""
        if command is not None and not self.is_before(command):
            self.block_of = self.count if self.is_same(command) else self.count + 1
            self.block = 0
        self.blocks += 1
        self.block += 1
        self.at_once = self.chosen(BLOCK)

    def edited(self, value: Any, *which: str) -> Any:
        """What the chosen faults of these kinds or places make of a value, in the order of their
        lines. Prints those that strike. One that changes nothing does not."""
        return self.after([*self.at_once, *self.due], value, which)

    def edited_at_once(self, value: Any, *which: str) -> Any:
        """The same with the faults of an event that is no command."""
        return self.after(list(self.at_once), value, which)

    def after(self, chosen: list[Fault], value: Any, which: tuple[str, ...]) -> Any:
        """A value after those of these faults that are of these kinds or places."""
        for it in chosen:
            if it.kind in which or it.place in which:
                new = it.edit(value)
                if new != value:
                    value = new
                    self.strike(it)
        return value

    def strike(self, it: Fault) -> None:
        """Notes a fault that strikes."""
        for chosen in (self.at_once, self.due):
            if it in chosen:
                chosen.remove(it)
        self.struck.append(it.kind)
        if it.when == "INS XX once":
            self.all.remove(it)
        self.tell(f"fault at {self.where(it)}: {it.text}".translate(CONTROLS))

    def where(self, it: Fault) -> str:
        """Where a fault strikes."""
        return {COMMAND: f"command {self.count}", BLOCK: f"block {self.blocks}",
                RESET: f"reset {self.resets}", PPS: "PPS"}[it.event]

    def leave(self) -> None:
        """Takes the card out of the reader. Raises `Gone`."""
        self.is_removed = True
        self.gone = Gone("gone")
        raise self.gone

    def fall_silent(self) -> None:
        """Makes the card silent until a reset. Raises `Gone`."""
        self.gone = Gone(self.struck[-1])
        raise self.gone

    def hold(self) -> None:
        """At an event that is no command: `pauses` gets the time before what is sent. Raises
        `Gone`."""
        self.pauses = self.edited_at_once(self.pauses, "delay TIME")
        if self.edited_at_once(False, *SILENT):
            self.fall_silent()

    def end_event(self) -> None:
        """Ends an event that is no command."""
        self.at_once = []

    def changed(self, answer: bytes) -> bytes:
        """The answer with the faults in it. `pauses` gets the time before it. Raises `Gone`."""
        data = answer[:-2]
        status = answer[-2:]
        self.was_6c = status[:1] == b"\x6C"
        if data or status[0] not in (0x61, 0x6C):
            data = self.edited(data, *DATA)
        status = self.edited(MORE if self.edited(False, "61 without end") else status, "status SW")
        self.pauses = self.edited(self.pauses, "delay TIME")
        if self.edited(False, *SILENT):
            self.fall_silent()
        return data + status
