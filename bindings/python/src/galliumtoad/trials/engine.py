"""Lets a terminal do its job with the card of one trial: what all jobs share."""

import contextlib
import re
import threading
import time
from abc import ABC, abstractmethod
from dataclasses import dataclass
from queue import Empty, SimpleQueue
from typing import Iterator, Mapping, Optional, Sequence, Union

from ..mistakes import CONTROLS
from ..simulate.serve import serve_pty, serve_tty
from ..simulate.vpcd import connected, talk_vpcd
from .by_hand import Hand, asked
from .interrupts import INTERRUPTS
from .room import Room, as_text
from .run import Run
from .trial import Trial

AWAIT_READER = 60.0  # seconds until a reader should have seen a card come
GONE_AFTER = 1.0  # seconds until it should have seen that the card is gone
AWAIT_END = 5.0  # seconds for the end of a card that writes to a line which nobody reads
NO_MESSAGE = re.compile("[0-9A-Fa-f ]{180}")  # a line with a value


@dataclass(frozen=True)
class Terminal:
    """A terminal that is tried: its command line, the words that this may name, the address of
    vpcd, and the seconds for a job. `before` and `after` are commands around each run. With
    `has_home` each run has a HOME of its own. With `has_marks` it reads its line as a tty that
    marks wrong parity. If it is no program, there is a `hand`."""

    words: list[str]
    names: Mapping[str, str]
    vpcd: str
    limit: float
    before: Sequence[str] = ()
    after: Sequence[str] = ()
    has_home: bool = False
    has_marks: bool = False
    hand: Optional[Hand] = None

    @property
    def is_line(self) -> bool:
        """Whether it has a serial line, and not a reader."""
        return bool(self.hand) or any("{tty}" in it for it in self.words)


class Job(ABC):
    """What a terminal does, and the cards that it does it with."""

    @abstractmethod
    def begin(self, terminal: Terminal) -> Trial:
        """Tries the terminal without a fault. Raises `Mistake` if it fails: then no fault would say
        anything of it."""

    @abstractmethod
    def trials(self) -> list[Trial]:
        """The trials of the job, once it has begun. Raises `Mistake` for an empty choice."""

    @abstractmethod
    def run(self, trial: Trial) -> Run:
        """A new card with the faults of a trial."""


class Service(threading.Thread):
    """Serves a card, at a line or in a reader, until the run ends."""

    def __init__(self, run: Run, terminal: Terminal) -> None:
        super().__init__(daemon=True)
        self.card = run
        self.terminal = terminal
        self.line = None if terminal.is_line else connected(terminal.vpcd)
        self.ready = SimpleQueue[Union[str, Exception]]()
        self.error: Optional[Exception] = None

    def run(self) -> None:
        try:
            if hand := self.terminal.hand:
                self.ready.put(hand.path)
                serve_tty(self.card, hand.path, hand.baud, hand.signal)
            elif self.line:
                talk_vpcd(self.card, self.line, self.ready.put)
            else:
                serve_pty(self.card, True, self.ready.put, has_marks=self.terminal.has_marks)
        except Exception as why:  # of the card, not of the terminal
            self.error = why
            self.ready.put(why)

    def begun(self) -> str:
        """Waits until a terminal may begin. Returns the name of its line. Raises `OSError`, and
        what the card does."""
        self.start()
        try:
            with INTERRUPTS.wait():
                name = self.ready.get(timeout=AWAIT_READER)
        except Empty:
            raise OSError(f"the reader at {self.terminal.vpcd} does not see the card") from None
        if isinstance(name, Exception):
            raise name
        return name

    def end(self) -> None:
        """Takes the card away."""
        self.card.is_over.set()
        if self.is_alive():
            self.join(AWAIT_END)
        if self.line:
            time.sleep(GONE_AFTER)


def last_line(text: str) -> str:
    """The last line of an output that is no value, or none."""
    lines = [it for it in text.splitlines() if not NO_MESSAGE.search(it)] or [""]
    return lines[-1].translate(CONTROLS)[:200]


@contextlib.contextmanager
def around(room: Room, terminal: Terminal) -> Iterator[None]:
    """Runs the commands before and after what is in it, the second also after an error."""
    room.done("--before", terminal.before, terminal.limit)
    try:
        yield
    finally:
        room.done("--after", terminal.after, terminal.limit)


@contextlib.contextmanager
def served(run: Run, terminal: Terminal) -> Iterator[str]:
    """A card while it is served. Returns the name of its line. Raises what its application does."""
    service = Service(run, terminal)
    try:
        yield service.begun()
    finally:
        service.end()
    if service.error:
        raise service.error


def done(trial: Trial, room: Room, terminal: Terminal) -> tuple[Optional[int], str]:
    """Lets a terminal do its job. Returns its exit status, if it has ended, and its output."""
    if terminal.hand:
        with INTERRUPTS.wait():
            return asked(trial)
    status, output = room.ended(terminal.words, terminal.limit)
    return status, room.plain(as_text(output))


def tried(job: Job, trial: Trial, terminal: Terminal) -> tuple[Run, str]:
    """Lets a terminal do the job with this fault, once its card is there, and judges it. Returns
    the card, which is closed, and the output. Raises `OSError`, and `Mistake`."""
    with INTERRUPTS.held(), job.run(trial) as run:
        with Room(terminal.names, terminal.has_home) as room, around(room, terminal):
            begun = time.monotonic()
            with served(run, terminal) as tty:
                room.names["tty"] = tty
                status, text = done(trial, room, terminal)
            trial.seconds = round(time.monotonic() - begun, 1)
            run.judge(status, text)
    trial.said = last_line(text)
    return run, text
