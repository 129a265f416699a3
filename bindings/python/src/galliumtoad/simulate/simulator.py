"""The simulated card: what reaches it as whole TPDUs and commands, with the faults in them."""

import contextlib
import threading
from typing import Callable, ContextManager, Optional, Union

from .. import Application, Atr, AtrError, Card, Code, Command, CommandError, Level, OwnCard
from ..cards import LEAST_ATR, Replay
from ..edits import NULL
from ..faults import OK, Faults
from ..mistakes import mistakes
from .watch import Watch

NO_INS = b"\x6D\x00"
NO_FORM = b"\x67\x00"
TAKE_DATA = b"\xA4\xDA"  # INS of the card of a table: SELECT and PUT DATA


def nothing(_: bytes) -> None:
    """Takes what nobody asks for."""


class Simulator(contextlib.ExitStack):
    """A card with an answer to reset and faults, until the end of `with`. In this process it is a
    transport: of whole commands if it is an `OwnCard`, or if the answer to reset offers another
    protocol than T=0 first, else of TPDUs. It raises `Gone` if the card is mute or has no power.
    `carried_out` gets what reaches the card, once also with the fault `twice`.

    >>> from galliumtoad.faults import read
    >>> with Simulator(Card({bytes(5): {}}), faults=Faults(read("p 1, status 6A82"))) as reader:
    ...     reader(bytes.fromhex("00A40400050000000000")).hex()
    fault at command 1: faults:1: p 1, status 6A82
    '6a82'"""

    def __init__(self, card: Union[Card, OwnCard], atr: bytes = LEAST_ATR,
                 faults: Optional[Faults] = None, shows: bool = False) -> None:
        super().__init__()
        self.callback(card.close)
        self.card = card
        self.atr = atr
        self.faults = faults or Faults()
        self.faults.tell = self.tell
        self.shows = shows
        self.sign = ""  # of the line of the dialogue that has not ended
        self.is_over = threading.Event()
        self.watch = Watch()
        self.came = b""  # the last TPDU or command
        self.carried_out: Callable[[bytes], object] = nothing
        self.working: Callable[[], ContextManager[None]] = contextlib.nullcontext  # what it is in
        self.application: Optional[Application] = None
        self.level = Level.TPDU
        if isinstance(card, OwnCard):
            self.application = card.application
            self.level = Level.APDU
        with contextlib.suppress(AtrError):  # whole commands reach a card with any answer
            if Atr(atr).protocols[0]:
                self.level = Level.APDU

    def __call__(self, data: bytes, /) -> bytes:
        self.faults.check([], "a card in this process")
        self.tell(data.hex().upper(), ">")
        answer = self.whole(data)
        while self.faults.pauses:
            self.is_over.wait(self.faults.pauses.pop().seconds())
        self.tell(answer.hex().upper(), "<")
        return answer

    def reset(self) -> None:
        """Resets the card, which then has power and is not mute, if it is there."""
        self.card.reset()
        if not self.faults.is_removed:
            self.faults.gone = None
        if self.shows:
            self.tell("reset")

    @mistakes("standard output", OSError, ValueError)  # which is no end of the line
    def tell(self, text: str, sign: str = "") -> None:
        """Prints a line; or if the card `shows` them, bytes that the terminal (`>`) or the card
        (`<`) sent. Bytes of one end are one line, as `trace_explain` reads it."""
        if not sign:
            self.end_line("")
            print(text, flush=True)
        elif self.shows and text:
            if sign != self.sign:
                self.end_line(sign)
                print(sign, end=" ")
            print(text, end="", flush=True)

    def end_line(self, sign: str) -> None:
        """Ends the line of the dialogue, if there is one. The next one has a sign, or none."""
        if self.sign:
            print()
        self.sign = sign

    def takes_data(self, header: bytes) -> bool:
        """Whether data of the terminal follow a header."""
        if self.application:
            return self.application.takes_data(header)
        return header[1] in TAKE_DATA

    def instead(self, data: bytes) -> Optional[bytes]:
        """What a card of a capture answers in place of the library's, or None."""
        return self.application.instead(data) if isinstance(self.application, Replay) else None

    def carry_out(self, data: bytes, more: Optional[Callable[[], bytes]] = None) -> bytes:
        """Carries out a whole TPDU or command, as the `level` says; or a header, if `more` gets its
        data. Bytes that are no command get 6D00 or 6700; no TPDU raises `TransportError`."""
        if more:
            return self.by_characters(data, more)
        with self.working():
            try:
                return self.card.tpdu(data) if self.level is Level.TPDU else self.card.apdu(data)
            except CommandError as why:
                return NO_INS if why.code is Code.INVALID_INS else NO_FORM

    def by_characters(self, header: bytes, more: Callable[[], bytes]) -> bytes:
        """Carries out a TPDU. Returns the data and the status."""
        self.card.receive_bytes(header)
        sent = self.sent()
        if len(sent) == 1:  # it asks for data
            self.came = header + more()
            self.card.receive_bytes(self.came[5:])
            return self.sent()
        is_status = len(sent) == 2
        return sent if is_status else sent[1:]  # without its procedure byte

    def sent(self) -> bytes:
        """The card's next characters, without the NULLs that its application asks for."""
        with self.working():
            return b"".join(iter(self.card.send_bytes, b"")).lstrip(NULL)

    def whole(self, data: bytes, more: Optional[Callable[[], bytes]] = None) -> bytes:
        """As `carry_out`, with the faults that strike."""
        if self.faults.gone:
            raise self.faults.gone
        self.came = data
        answer = self.faults.begin(data, self.card.reset) or self.instead(data)
        if more and self.faults.edited(False, "early status"):
            answer = OK
        elif answer is None:
            answer = self.carry_out(data, more)
            self.carried_out(self.came)
            if self.faults.edited(False, "twice"):
                answer = self.carry_out(self.came)
        elif more and data[4] and self.takes_data(data[:4]):
            self.came = data + more()
        return self.faults.changed(answer)
