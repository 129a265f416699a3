"""A run of a batch: readers, each in a thread of its own, and what the operator sees."""

import argparse
import contextlib
import errno
import os
import select
import signal
import socket
import sys
import threading
import time
from itertools import count, takewhile
from pathlib import Path
from typing import Any, Optional

from smartcard import scard
from smartcard.Exceptions import SmartcardException
from smartcard.pcsc.PCSCCardConnection import PCSCCardConnection

from . import report
from ..errors import Error
from ..mistakes import CONTROLS
from ..pyscard import transport
from ..terminal import Put, Send, Terminal
from .cells import Rows
from .journal import LEASE, Journal
from .script import (Recorder, Refused, carry_out, check_of, compared, counted, identity,
                     sentence)

FAILURES_IN_A_ROW = 5
PAUSE = 1.0  # between two looks for a reader that went away, and two reports
PRESENT = scard.SCARD_STATE_PRESENT  # the upper 16 bits of a state count cards
DECIDED = "a person has decided about this row meanwhile: keep this card apart"
WIPE = "\r\x1b[K"  # removes the bar


class Gone(OSError):
    """A reader, or pcscd, is gone."""


def told(code: int, found: Any) -> Any:
    """Returns the result of a PC/SC call, also after a timeout. Raises `Gone`."""
    if code not in (scard.SCARD_S_SUCCESS, scard.SCARD_E_TIMEOUT):
        raise Gone(scard.SCardGetErrorMessage(code))
    return found


def context() -> Any:  # each thread has its own
    return told(*scard.SCardEstablishContext(scard.SCARD_SCOPE_USER))


def chosen(parts: list[str]) -> dict[str, str]:
    """Returns the reader with each of these parts of names, or the only one. Raises `Gone`."""
    made = context()
    code, here = scard.SCardListReaders(made, [])
    scard.SCardReleaseContext(made)
    here = [] if code == scard.SCARD_E_NO_READERS_AVAILABLE else sorted(told(code, here))
    there = f"there are: {', '.join(map(repr, here))}" if here else "there is no reader"
    named = {part: [it for it in here if part in it] for part in parts or [""]}
    if wrong := [it for it in named if len(named[it]) != 1]:
        counts = [f"'{it}' names {len(named[it])} readers; {there}" for it in wrong]
        raise Gone("\n".join(counts) if parts else f"name one with --reader; {there}")
    return {part: name for part, [name] in named.items()}


def state_of(connection: Any, name: str, known: int, wait: int) -> int:
    """Returns a reader's state, once it changes or after `wait` milliseconds."""
    found = told(*scard.SCardGetStatusChange(connection, wait, [(name, known)]))
    state = int(found[0][1] & ~scard.SCARD_STATE_CHANGED) if found else known
    if state & (scard.SCARD_STATE_UNKNOWN | scard.SCARD_STATE_UNAVAILABLE):
        raise Gone("unplugged")
    return state


def connected(name: str) -> Any:
    card = PCSCCardConnection(name)
    card.connect(None, scard.SCARD_SHARE_EXCLUSIVE, scard.SCARD_RESET_CARD)
    return card


class Desk:
    """What the threads of a run share. `faults` end it."""

    def __init__(self, rows: Rows, journal: Journal, given: argparse.Namespace) -> None:
        self.rows, self.journal, self.given = rows, journal, given
        self.stopped, self.keys, self.faults = threading.Event(), 0, list[str]()
        self._failures, self._alone, self._bar, self.interrupts = count(1), threading.Lock(), "", 0
        self._begun, self._done_before = time.monotonic(), journal.counts()["done"]
        self._next, self._reported, self._is_told = 0.0, object(), False

    def say(self, it: str) -> None:
        """Prints a line above the bar."""
        with self._alone:
            print(f"{self._bar and WIPE}{it.translate(CONTROLS)}\n{self._bar}", end="", flush=True)

    def keep(self, row: int, lines: list[str]) -> None:
        """Adds a failed or unsure row's dialogue to its file. The `--stop-after`th ends the run."""
        file, it = Path(self.journal.base.folder, f"{row}.trace"), self.journal.entry(row)
        about = f"# row {row}, card {it.card or 'unknown'}, {it.reader}, {it.state}"
        about = f"{about}, {report.time_of(it.ended, 'T')}: {it.reason}"
        try:
            file.parent.mkdir(0o700, exist_ok=True)
            file.touch(0o600)
            with file.open("a", encoding="utf-8", errors="backslashreplace") as opened:
                opened.write("\n".join([about, *lines, ""]))
        except OSError as error:
            self.say(f"the dialogue of row {row} is lost: {error.strerror}")
        if next(self._failures) == self.given.stop_after:
            self.stopped.set()
            self.say(f"stopped: {counted(self.given.stop_after, 'row')} failed")

    def run(self) -> None:
        """Serves the readers. Then waits for cards in progress, unless Ctrl-C was pressed twice."""
        readers = [Reader(self, part) for part in chosen(self.given.reader)]
        # A script's background job inherits that it is ignored.
        before = signal.signal(signal.SIGINT, self._interrupt)
        renews = threading.Thread(target=self._renew, daemon=True)
        try:
            renews.start()
            for it in readers:
                it.start()
            while any(it.is_alive() for it in readers) and self.interrupts < 2:
                self._turn()
        finally:
            signal.signal(signal.SIGINT, before)
            self.stopped.set()
            for it in readers:
                if self.interrupts < 2:
                    it.join()
            if self.interrupts > 1:  # no row begins any more
                self.journal.end()
            print(self._bar and WIPE, end="", flush=True)

    def _renew(self) -> None:
        """Renews the lease. If that fails, the row in progress may become unsure, and no row begins
        without a lease."""
        while not self.stopped.wait(LEASE / 4):
            with contextlib.suppress(OSError, ValueError):
                self.journal.renew()

    def _interrupt(self, *_: object) -> None:  # may come within itself, so it takes no lock
        self.interrupts += 1

    def _turn(self) -> None:
        """Writes the report and draws the bar, if it is time. Waits a little, or for Enter."""
        if self.interrupts and not self._is_told:
            self._is_told = True
            self.say("stops after the cards in progress; Ctrl-C again stops at once")
        if (begun := time.monotonic()) >= self._next:
            self._show(begun)
            # A large table is looked at rarely.
            self._next = begun + max(PAUSE, 50 * (time.monotonic() - begun))
        time.sleep(0.1)
        # A job in the background must not read, nor one of another session than its terminal.
        with contextlib.suppress(OSError):
            if sys.stdin and sys.stdin.isatty() and os.tcgetpgrp(0) == os.getpgrp():
                self.keys += bool(select.select([sys.stdin], [], [], 0)[0] and os.read(0, 1 << 16))

    def _show(self, now: float) -> None:
        """Writes the report, and draws the bar with the rate and the time left."""
        version = self.journal.version()
        try:
            if version != self._reported:
                report.write(self.given.report, [self.journal])
        except OSError as error:
            self.say(f"no report: {error}")
        self._reported = version
        if sys.stdout.isatty():
            counts = self.journal.counts()
            done, all_of = counts["done"], sum(counts.values())
            rate = (done - self._done_before) / max(now - self._begun, 0.1) * 60
            left = f", {(all_of - done) / rate:.0f} min left" if rate else ""
            full = f"{'#' * (all_of and done * 20 // all_of):-<20}"
            with self._alone:
                of = counted(all_of, "row")
                self._bar = f"[{full}] {done:,} of {of}, {rate:.0f} a minute{left}"
                print(f"{WIPE}{self._bar}", end="", flush=True)


class Reader(threading.Thread):
    """Serves the reader with this part of a name, until no row is free or it is set aside."""

    def __init__(self, desk: Desk, part: str) -> None:
        super().__init__(daemon=True)
        self.desk, self.part, self.reader, self.journal = desk, part, part, desk.journal
        self.row: Optional[int] = None  # is held for the next card, or the one in the reader
        self.failures = 0

    def run(self) -> None:
        is_here = False
        while self._may_continue() and self.journal.has_free():
            try:
                self.reader, is_here = chosen([self.part])[self.part], True
                with socket.socket(socket.AF_UNIX) as mark, contextlib.ExitStack() as ends:
                    # The name of a socket is short. A reader's name ends in its number.
                    mark.bind(b"\0galliumtoad.batch " + os.fsencode(self.reader)[-80:])
                    ends.callback(scard.SCardReleaseContext, made := context())
                    self._serve(made)
            except Gone as error:
                if is_here:
                    self._say(f"the reader is gone: {sentence(error)}")
                is_here = False
                self.give_up()
                self.desk.stopped.wait(PAUSE)
            except Exception as error:
                if getattr(error, "errno", None) == errno.EADDRINUSE:
                    self._say("set aside: another run serves this reader")
                    break
                self.desk.faults.append(f"{self.reader}: {sentence(error)}")
                self.desk.stopped.set()  # the journal can't be written
        if self.failures >= FAILURES_IN_A_ROW:
            self._say(f"set aside: {FAILURES_IN_A_ROW} cards in a row failed")
        self.give_up()

    def give_up(self) -> None:
        row, self.row = self.row, None
        with contextlib.suppress(OSError, ValueError):  # its lease ends by itself
            if row:
                self.journal.release(row)

    def _may_continue(self) -> bool:
        return not (self.desk.stopped.is_set() or self.desk.interrupts
                    or self.failures >= FAILURES_IN_A_ROW)

    def _say(self, what: str) -> None:
        self.desk.say(f"{self.reader}: {what}")

    def _serve(self, connection: Any) -> None:
        # Numbers of cards: the one that was served, and one that did not answer to reset.
        keys, used, mute, asked = self.desk.keys, -1, -1, 0
        known = state_of(connection, self.reader, scard.SCARD_STATE_UNAWARE, 0)
        if lies := known & PRESENT and not self.desk.given.go:
            used = known >> 16
            self._say("a card lies in it: remove and insert it, or press Enter to write it")
        while self._may_continue():
            if lies and self.desk.keys > keys:
                used = -1
            self.row = self.row or self.journal.reserve(self.reader)
            if self.row is None and not self.journal.has_free():
                break
            if self.row and known & PRESENT and known >> 16 != used:
                try:
                    card, asked = connected(self.reader), 0
                    # It may have changed between the last look and this connection.
                    known, lies = state_of(connection, self.reader, known, 0), False
                    used = known >> 16
                    self._serve_card(card)
                    continue
                except SmartcardException as error:
                    if mute != known >> 16:
                        self._say(sentence(error))
                        self.failures += 1
                    mute, asked = known >> 16, 0
            elif self.row and asked != self.row:
                self._say(f"insert a card for row {self.row}")
                asked = self.row
            known = state_of(connection, self.reader, known, 500)

    def _serve_card(self, card: Any) -> None:
        """Gives a card the row that is held, or the one that it has."""
        if own := self._carry_out(card):
            self.row = self.journal.reserve(self.reader, own)
            if self.row is None:
                self._say(f"row {own} is in progress: wait for it, and insert the card again")
            else:  # only selects and gets were carried out so far
                self._carry_out(card)
        with contextlib.suppress(SmartcardException):
            card.disconnect()

    def _carry_out(self, card: Any) -> Optional[int]:
        """Carries out the script for the row that is held. Returns the card's own row if free."""
        row = own = self.row or 0
        steps, heading = self.desk.rows[row - 1], self.journal.heading
        recorder, begun = Recorder(transport(card)), time.monotonic()

        def identify(terminal: Terminal) -> None:
            nonlocal own
            if heading.id_tag is not None:
                found = identity(terminal, recorder, heading.id_tag)
                own = self.journal.identify(row, found) or 0
                if own != row:
                    raise Refused(f"card {found} has {self.journal.about(own)}" if own else DECIDED)

        if not self.journal.begin(row, check_of(steps, heading.salt), self.reader):
            self.row = self.journal.reserve(self.reader)  # the lease had ended
            return self._carry_out(card) if self.row else None
        word, reason = carry_out(steps, recorder, identify)
        is_noted, self.row = self.journal.note(row, word, reason), None
        if own not in (0, row) and self.journal.state(own) == "free":
            return own
        self._end(row, word, reason if is_noted else DECIDED, time.monotonic() - begun)
        if own == row:
            self.failures = 0 if word == "done" else self.failures + 1
        if word in ("failed", "unsure"):
            self.desk.keep(row, recorder.lines)
        return None

    def _end(self, row: int, word: str, reason: str, took: float) -> None:
        card = self.journal.entry(row).card
        about = f"{card and f', card {card}' or ''}, {took:.1f} s{reason and f': {reason}'}"
        self._say(f"row {row} {word}{about}")


def look(rows: Rows, journal: Journal, given: argparse.Namespace) -> int:
    """Waits for a card in the only reader, and compares it with a row. Returns the exit status."""
    if (it := journal.entry(row := given.look)).begun is None:
        raise ValueError(f"row {row} has not begun")
    if len(names := chosen(given.reader)) != 1:
        raise ValueError("--look needs one reader")
    [name], connection, steps, card = names.values(), context(), rows[row - 1], "the card"
    known = state_of(connection, name, scard.SCARD_STATE_UNAWARE, 0)
    if not known & PRESENT:
        print(f"{name}: insert the card of row {row}", flush=True)
    while not known & PRESENT:
        known = state_of(connection, name, known, 500)
    try:
        reader = transport(opened := connected(name))
        if wanted := it.card:
            with Terminal() as terminal:
                for step in takewhile(lambda it: not isinstance(it.operation, (Put, Send)), steps):
                    terminal.run(reader, step.operation)
                card = f"card {identity(terminal, reader, journal.heading.id_tag or 0)}"
            if card != f"card {wanted}":
                raise ValueError(f"this is {card}, but row {row} is on card {wanted}")
        word = compared(steps, reader)
        opened.disconnect()
    except (SmartcardException, Refused, Error) as error:
        raise ValueError(f"{name}: {error}") from None
    print(f"row {row}, {card}: {word}")
    return 0 if word == "done" else 1
