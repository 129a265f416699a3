"""Serves a card in a reader of vsmartcard's vpcd."""

import contextlib
import socket
import sys
import time
from typing import Callable

from .. import Level
from ..faults import Gone
from ..mistakes import mistakes, number
from ..waits import awaits, next_byte
from .line import FOREVER
from .simulator import Simulator

ADDRESS = "localhost:35963"
POWER_OFF, POWER_ON, RESET, GET_ATR = (bytes([it]) for it in (0, 1, 2, 4))  # its own messages
MUTE_FOR, AWAY_FOR = 10.0, 2.0  # seconds until the connection closes, and opens again
SILENT_FOR = 1.0  # seconds until vpcd, which serves one connection at a time, seems to have another
LOOKS_AGAIN = 2  # requests for the answer to reset: pcscd's own, and then one as it looks again


def connected(address: str) -> socket.socket:
    """Connects to vpcd. Raises `OSError`, and `Mistake` for an address without a port."""
    host, _, port = address.rpartition(":")
    with mistakes(f"argument --vpcd: HOST:PORT is expected: {address}", ValueError):
        it = socket.create_connection((host or "localhost", range(65536).index(number(port))))
    if it.getsockname() == it.getpeername():  # with itself, as TCP may while nothing listens
        it.close()
        raise ConnectionRefusedError("nothing listens there")
    return it


def receive(of: Simulator, line: socket.socket) -> bytes:
    """The next message. Raises `OSError` if the connection or the program has ended."""
    size = next_byte(line.fileno(), FOREVER, of.is_over.is_set) + line.recv(1)
    # vpcd sends the rest once the length is acknowledged, else 40 ms later.
    line.setsockopt(socket.IPPROTO_TCP, socket.TCP_QUICKACK, 1)
    data = line.recv(int.from_bytes(size, "big"), socket.MSG_WAITALL)
    if len(data) < int.from_bytes(size, "big"):
        raise OSError("the connection has ended")
    return data


def send(line: socket.socket, answer: bytes) -> None:
    """Sends a message, as much as one takes."""
    answer = answer[:0xFFFF]
    line.sendall(len(answer).to_bytes(2, "big") + answer)


def answer_all(of: Simulator, line: socket.socket, tell: Callable[[str], object]) -> None:
    """Answers messages. Raises `OSError` at the end of the connection, and `Gone`."""
    looks = -1
    while True:
        data = receive(of, line)
        if data in (POWER_OFF, POWER_ON, RESET):
            of.reset()
            looks = LOOKS_AGAIN
        elif data == GET_ATR:
            looks -= 1
            if looks == 0:
                tell("")
            send(line, of.atr)
        else:
            send(line, of(data))


def talk_vpcd(of: Simulator, line: socket.socket, tell: Callable[[str], object]) -> None:
    """Answers vpcd until the connection or the program ends. `tell` gets a call when pcscd, which
    has given the card power and read its answer, looks for it again."""
    of.level = Level.APDU
    with line:
        with contextlib.suppress(OSError, Gone):
            answer_all(of, line, tell)
        if str(of.faults.gone) == "mute":
            of.is_over.wait(MUTE_FOR)


class Reader:
    """A reader of vpcd. It prints what it waits for, once."""

    def __init__(self, of: Simulator, address: str) -> None:
        self.of = of
        self.address = address
        self.said = ""

    def say(self, now: str) -> None:
        """Prints a line, unless it was the last one."""
        if now != self.said:
            print(now, file=sys.stderr, flush=True)
        self.said = now

    def connect(self) -> None:
        """Serves the card for one connection, if there is one."""
        try:
            line = connected(self.address)
        except OSError as why:
            self.say(f"waiting for vpcd at {self.address}: {why}")
            return
        with line, contextlib.suppress(OSError):
            self.serve(line)

    def serve(self, line: socket.socket) -> None:
        """Serves the card once vpcd's first message shows that it is in the reader."""
        if not awaits(line.fileno(), time.monotonic() + SILENT_FOR, self.of.is_over.is_set):
            self.say(f"waiting for vpcd at {self.address}: it asks for no card, as while it has"
                     " one")
            awaits(line.fileno(), FOREVER, self.of.is_over.is_set)
        if line.recv(1, socket.MSG_PEEK):
            self.say(f"the card is in the reader of vpcd at {self.address}")
            talk_vpcd(self.of, line, lambda name: None)
            self.said = ""


def serve_vpcd(of: Simulator, address: str) -> None:
    """Puts the card into vpcd's reader, again whenever a connection ends."""
    reader = Reader(of, address)
    of.faults.check([], "vpcd")
    while not of.is_over.is_set():
        reader.connect()
        of.reset()
        of.is_over.wait(AWAY_FOR)
