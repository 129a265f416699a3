"""What keeps a line's terminal waiting while an application works."""

import multiprocessing
import os
import select
import signal
import time
from multiprocessing.connection import Connection
from typing import Any, Optional

from .. import Level, OwnCard
from ..edits import NULL, block
from ..mistakes import mistakes
from ..waits import LOOKS_EVERY
from .line import FOREVER, MULTIPLE, Line
from .t1 import WTX, request

HAS_ENDED = "the process that asks for more time has ended"


def keep(line: Line) -> None:
    """Starts the keeper of an application, unless there is one."""
    if isinstance(line.of.card, OwnCard) and not line.keeper:
        line.keeper = Keeper(line)
        line.of.callback(line.keeper.close)


class Keeper:
    """A process that asks a line's terminal for more time while an application works, which it does
    in `with`. No thread could do that: the application may keep the interpreter to itself. The end
    of `with` raises `OSError` if the terminal has left."""

    def __init__(self, line: Line) -> None:
        self.line = line
        self.way, its = multiprocessing.Pipe()
        self.number = os.fork()
        if not self.number:
            try:
                self.way.close()
                self.run(its)
            finally:
                os._exit(0)  # also if the simulation has ended
        its.close()

    def close(self) -> None:
        """Ends the process."""
        if self.number:
            self.way.close()
            os.kill(self.number, signal.SIGKILL)
            os.waitpid(self.number, 0)
        self.number = 0
        self.line.keeper = None

    @mistakes(HAS_ENDED, EOFError, OSError)
    def __enter__(self) -> None:
        self.way.send((self.line.of.level, self.line.waits()))

    def __exit__(self, kind: Optional[type[BaseException]], *_: object) -> None:
        if kind:
            self.close()
            return
        told, self.line.ahead, is_left = self.result()
        for it in told:
            self.line.tell(*it)
        if is_left:
            self.line.was_left = True
            raise OSError("the terminal has left")

    @mistakes(HAS_ENDED, EOFError, OSError)
    def result(self) -> Any:
        """What `asked` returns there. It waits for a terminal that has not responded yet."""
        self.way.send(None)
        while not self.way.poll(LOOKS_EVERY):
            if self.line.ends():
                return [], b"", True
        return self.way.recv()

    def run(self, way: Connection) -> None:
        """What the process does, until the simulation ends."""
        line = self.line
        other = select.poll()
        other.register(way.fileno(), 0)
        line.ends = lambda: bool(other.poll(0))
        signal.signal(signal.SIGINT, signal.SIG_IGN)  # which the application may take
        while True:
            line.of.level, waits = way.recv()
            way.send(self.asked(way, waits))

    def asked(self, way: Connection, waits: tuple[float, float]
              ) -> tuple[list[tuple[str, str]], bytes, bool]:
        """Asks for time until the application has ended. Returns the dialogue, a request of the
        terminal that waits for its response, and whether the terminal has left."""
        line = self.line
        told = list[tuple[str, str]]()
        is_left = False
        line.tell = lambda text, sign="": told.append((text, sign))
        line.ahead = b""
        wait, later = waits
        try:
            while not self.has_ended(way, wait):
                self.ask_for_time()
                wait = later
        except OSError:
            is_left = True
            line.clear()
        way.recv()
        return told, line.ahead, is_left

    def has_ended(self, way: Connection, seconds: float) -> bool:
        """Whether the application ends in this time. Raises `OSError` if the terminal leaves."""
        until = time.monotonic() + seconds
        while not way.poll(LOOKS_EVERY):
            if self.line.port.is_left():
                raise OSError
            if time.monotonic() > until:
                return False
        return True

    def ask_for_time(self) -> None:
        """Sends NULL at T=0, and at T=1 S(WTX request) until that has its response."""
        if self.line.of.level is Level.TPDU:
            self.line.write(NULL)
        else:
            request(self.line, block(0, WTX, bytes([MULTIPLE])), FOREVER)
            self.line.send_echo()
