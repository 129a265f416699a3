"""A program as a caller writes it, which test_types.py gives to mypy. A wrong line names its error
in a comment: mypy also reports such a comment in a right line."""

from concurrent.futures import ProcessPoolExecutor
from typing import Optional

import galliumtoad
from galliumtoad import (T1, Answer, Application, Atr, BlockError, Card, Code, Command, Due, Edc,
                         Error, Exchange, Function, Get, Level, Operation, Outcome, OwnCard, Put,
                         Refused, Select, Send, Session, Status, Terminal, Transport)
from galliumtoad.pyscard import transport


class Reader:
    """A transport whose level is known when it is made."""

    def __init__(self, card: Card, level: Level) -> None:
        self.card, self.level = card, level

    def __call__(self, data: bytes, /) -> bytes:
        return self.card.apdu(data) if self.level is Level.APDU else self.card.tpdu(data)


class Whole:
    """A transport of whole commands."""

    level = Level.APDU

    def __call__(self, data: bytes, /) -> bytearray:
        return bytearray(data)


class OfWords:
    """Not a transport: its level is a text."""

    level = "apdu"

    def __call__(self, data: bytes, /) -> bytes:
        return data


class Unlevelled:
    """Not a transport: it has no level."""

    def __call__(self, data: bytes, /) -> bytes:
        return data


def line(data: bytes, waits: int) -> bytes:
    return b""


def text(data: bytes) -> str:
    return data.hex()


def transports(terminal: Terminal, card: Card, operation: Operation) -> None:
    reader: Transport = Reader(card, Level.TPDU)
    for each in (reader, Whole(), T1(line, Edc.LRC)):
        terminal.run(each, operation)
    terminal.run(card.tpdu, operation)
    quick: Function = lambda tpdu: b"\x90\x00"
    terminal.run(quick, operation)
    terminal.run(transport(object()), operation)
    terminal.run(OfWords(), operation)  # type: ignore[arg-type]
    terminal.run(Unlevelled(), operation)  # type: ignore[arg-type]
    terminal.run(text, operation)  # type: ignore[arg-type]
    terminal.run(card, operation)  # type: ignore[arg-type]
    terminal.run(card.tpdu, Get)  # type: ignore[arg-type]


def answers(answer: Answer, status: Status) -> tuple[bytes, str, bool]:
    try:
        data: bytes = answer.raise_for_status().data
    except Refused as refused:
        status = refused.status
    found = answer.object(0x5F20)
    found.value  # type: ignore[union-attr]
    return found.value if found else b"", status.text + status.words(0, 0x20), status.is_ok


def faults(error: Error, block: BlockError) -> tuple[Code, Optional[int], Outcome]:
    known: bool = error.code is Code.TOO_LONG or block.outcome is Outcome.IN_PART
    error.code is Code.TOO_LARGE  # type: ignore[attr-defined, misc]
    return error.code, error.place, block.outcome


def values(atr: Atr) -> tuple[int, tuple[int, ...], bytes, Edc, bool]:
    atr.colour  # type: ignore[attr-defined]
    atr.t1.colour  # type: ignore[attr-defined]
    atr.fi = 372  # type: ignore[misc]
    atr.t1.edc = Edc.CRC  # type: ignore[misc]
    return atr.fi + atr.t1.bwt_cycles, atr.protocols, atr.historical, atr.t1.edc, atr.specific


def by_hand(exchange: Exchange, card: Card) -> Optional[Due]:
    due = exchange.tpdu()
    due.data  # type: ignore[union-attr]
    while due is not None:
        exchange.answered(card.tpdu(due.data))
        due = exchange.tpdu()
    return exchange.apdu()


class Counter(Application):
    def __init__(self) -> None:
        self.count = 0

    def takes_data(self, header: bytes) -> bool:
        return header[1] == 0x10

    def carry_out(self, command: Command) -> tuple[int, bytes]:
        self.count += command.le + len(command.data)
        command.le = 0  # type: ignore[misc]
        return Status(0x9000), command.header


class OfTexts(Counter):
    def carry_out(self, command: Command) -> tuple[int, str]:  # type: ignore[override]
        return 0x9000, command.data.hex()


def of_your_own(terminal: Terminal, operation: Operation) -> bytes:
    Application()  # type: ignore[abstract]
    OwnCard("counter")  # type: ignore[arg-type]
    with OwnCard(Counter()) as card:
        card.application.settle()
        taken: int = card.receive_bytes(b"\x00\x10\x00\x00\x05")
        terminal.run(card, operation)  # type: ignore[arg-type]
        return card.send_bytes(taken)


def main() -> None:
    aid = bytes.fromhex("A0000000031010")
    with Session(Card({aid: {0x5F20: b"JOE"}}, locked=[(aid, 0x50)])) as session, Terminal() as it:
        for operation in (Select(aid), Get(0x5F20)):
            session.run(operation)
        it.begin(Put(0x5F20, memoryview(b"ANN")))
        it.begin(Send("00CA"))  # type: ignore[arg-type]
    with ProcessPoolExecutor() as pool:
        inner = pool.submit(galliumtoad.objects, b"\x50\x00").result()[0]
        print(inner.tag, inner.value.hex(), galliumtoad.__version__.split("."))
