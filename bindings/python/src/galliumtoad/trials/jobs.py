"""Tries several trials at once: each terminal has a process of its own."""

import multiprocessing
import os
import shutil
import signal
import tempfile
from dataclasses import replace
from multiprocessing.connection import Connection, wait
from typing import Any, Callable, Optional, Sequence, Union

from ..mistakes import Mistake
from .engine import Job, Terminal, tried
from .interrupts import INTERRUPTS
from .trial import Trial

FORK = multiprocessing.get_context("fork")
AWAIT_END = 30.0  # seconds that a process may take for its end


def terminals(terminal: Terminal, count: int, readers: Sequence[str]) -> list[Terminal]:
    """The terminal `count` times, each with a reader of its own. The readers of vpcd have ports one
    after another. Raises `Mistake`.

    >>> it = Terminal(["x", "{reader}"], {}, "localhost:35963", 60)
    >>> [(one.names["reader"], one.vpcd) for one in terminals(it, 2, ["A", "B"])]
    [('A', 'localhost:35963'), ('B', 'localhost:35964')]
    """
    if terminal.is_line:
        return [terminal] * count
    if len(readers) < count:
        raise Mistake(f"--jobs {count} needs --reader {count} times, and a port of vpcd for each")
    host, _, port = terminal.vpcd.rpartition(":")
    return [replace(terminal, names={**terminal.names, "reader": readers[at]},
                    vpcd=f"{host}:{int(port) + at}" if port.isdigit() else terminal.vpcd)
            for at in range(count)]


def work(ways: tuple[Connection, Connection], job: Job, trials: Sequence[Trial],
         terminal: Terminal, folder: str) -> None:
    """What such a process does until the connection ends, or an interrupt: Ctrl-C reaches each
    process, and the first one interrupts the others too."""
    signal.signal(signal.SIGINT, INTERRUPTS.take)
    other, way = ways
    other.close()
    tempfile.tempdir = folder
    try:
        while True:
            with INTERRUPTS.wait():
                at = way.recv()
            way.send(outcome(job, trials[at], terminal))
    except (EOFError, OSError, KeyboardInterrupt):
        pass


def outcome(job: Job, trial: Trial, terminal: Terminal) -> Union[dict[str, Any], Exception]:
    """Tries a terminal. Returns what a trial then has, or the error that came."""
    try:
        tried(job, trial, terminal)
        return vars(trial)
    except (Mistake, OSError) as why:
        return why


class Worker:
    """Such a process, and the trial that it has."""

    def __init__(self, job: Job, trials: Sequence[Trial], terminal: Terminal, folder: str) -> None:
        self.trials = trials
        self.at: Optional[int] = None
        self.way, its = FORK.Pipe()
        self.process = FORK.Process(target=work, args=(
            (self.way, its), job, trials, terminal, folder))
        self.process.start()
        its.close()

    def give(self, at: int) -> None:
        """Gives it a trial."""
        self.at = at
        self.way.send(at)

    def result(self) -> Trial:
        """Takes what it has found. Raises what it met, and `Mistake` if it has ended."""
        assert self.at is not None
        try:
            found: Any = self.way.recv()
        except EOFError:
            raise Mistake("a process of --jobs has ended") from None
        if isinstance(found, Exception):
            raise found
        it = self.trials[self.at]
        vars(it).update(found)
        self.at = None
        return it

    def close(self) -> None:
        """Lets it end. Interrupts what it does, if it does something."""
        self.way.close()
        is_busy = self.at is not None and self.process.is_alive()
        if is_busy and self.process.pid:
            os.kill(self.process.pid, signal.SIGINT)

    def end(self) -> None:
        """Waits for its end."""
        self.process.join(AWAIT_END)
        self.process.kill()
        self.process.join()


class Jobs:
    """Processes that try trials, until the end of `with`."""

    def __init__(self, job: Job, trials: Sequence[Trial], terminals: Sequence[Terminal]) -> None:
        self.job = job
        self.trials = trials
        self.terminals = terminals
        self.folder = ""
        self.workers = list[Worker]()

    def __enter__(self) -> "Jobs":
        self.folder = tempfile.mkdtemp(prefix="trials-")
        try:
            for it in self.terminals:
                self.workers.append(Worker(self.job, self.trials, it, self.folder))
        except BaseException:
            self.__exit__()
            raise
        return self

    def __exit__(self, *_: object) -> None:
        for it in self.workers:
            it.close()
        for it in reversed(self.workers):  # a later one has the connections of those before it
            it.end()
        shutil.rmtree(self.folder, ignore_errors=True)

    def run(self, places: Sequence[int], done: Callable[[Trial], object]) -> None:
        """Tries the trials at these places. `done` gets each when it has ended. Raises `OSError`
        and `Mistake`."""
        left = list(places)
        for it in self.workers:
            if left:
                it.give(left.pop(0))
        while busy := [it for it in self.workers if it.at is not None]:
            with INTERRUPTS.wait():
                ready = wait([it.way for it in busy])
            for worker in busy:
                if worker.way in ready:
                    done(worker.result())
                    if left:
                        worker.give(left.pop(0))
