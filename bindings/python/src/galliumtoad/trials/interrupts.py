"""Lets an interrupt, as Ctrl-C, wait until what was begun can be ended."""

import contextlib
import signal
from typing import Iterator


class Interrupts:
    """The interrupts of this process."""

    def __init__(self) -> None:
        self.is_waiting = False  # whether one ends what is in progress
        self.has_come = False

    def take(self, *_: object) -> None:
        """Takes an interrupt, as a handler of its signal. Nothing interrupts what then ends."""
        if self.is_waiting:
            self.is_waiting = False
            raise KeyboardInterrupt
        self.has_come = True

    def end_if_one_came(self) -> None:
        """Raises the interrupt that waits."""
        if self.has_come:
            self.has_come = False
            raise KeyboardInterrupt

    @contextlib.contextmanager
    def held(self) -> Iterator[None]:
        """Raises an interrupt only in a `wait`, and at the end of `with`. So none comes between the
        begin of a process and what ends it."""
        before = signal.getsignal(signal.SIGINT)
        is_interruptible = callable(before)
        if is_interruptible:
            signal.signal(signal.SIGINT, self.take)
        try:
            yield
        finally:
            if is_interruptible:
                signal.signal(signal.SIGINT, before)
            self.end_if_one_came()

    @contextlib.contextmanager
    def wait(self) -> Iterator[None]:
        """An interrupt ends what is in `with`."""
        self.end_if_one_came()
        self.is_waiting = True
        try:
            yield
        finally:
            self.is_waiting = False


INTERRUPTS = Interrupts()
