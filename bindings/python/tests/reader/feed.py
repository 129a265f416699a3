"""Removes cards from readers of kept_reader.so and inserts others, like a person at a desk.

    feed.py FOLDER READERS

The card of reader N is present while the file FOLDER/cardN exists. This changes a card after its
use, or if nothing happens for a while. Some cards have another profile, some have no identifier,
some are pulled at one of their commands, and some are inserted again later, with what they hold.
For each line of input it changes all cards that are not in use, and then prints a line. At the end
of the input it prints the numbers of cards, of those that were pulled, and of those that were
inserted again."""

import os
import sys
import threading
import time
from pathlib import Path

from smartcard import scard

AID, OTHER = "A0000000031010", "A0000000999999"
IDLE = 0.4
EVERY = int(os.environ.get("READER_EVERY", 50))


class Desk(threading.Thread):
    """Changes the cards of one reader."""

    def __init__(self, folder, at):
        super().__init__(daemon=True)
        self.file, self.at, self.number = folder / f"card{at}", at, 0
        self.to_pull, self.pulled, self.again = 0, 0, 0
        self.must_change = threading.Event()
        _, self.context = scard.SCardEstablishContext(scard.SCARD_SCOPE_USER)
        _, found = scard.SCardListReaders(self.context, [])
        [self.name] = [it for it in found if it.startswith(f"Slot{at}")]

    def state(self, known, milliseconds):
        asked = [(self.name, known)]
        _, found = scard.SCardGetStatusChange(self.context, milliseconds, asked)
        return found[0][1] & ~scard.SCARD_STATE_CHANGED if found else known

    def wait(self, flag, wanted, seconds=1e9):
        """Waits until the reader has this flag, or no longer has it. Returns False after the
        time."""
        end = time.monotonic() + seconds
        state = self.state(scard.SCARD_STATE_UNAWARE, 0)
        while bool(state & flag) != wanted:
            if time.monotonic() > end or (seconds < 1e9 and self.must_change.is_set()):
                return False
            state = self.state(state, 20)
        return True

    def identifier(self, number):
        return f"Slot{self.at}-{number}".encode().hex().upper()

    def contents(self, number):
        """What a card holds that was inserted before."""
        for line in reversed((self.file.parent / "kept").read_text().splitlines()):
            if f" 9F7F={self.identifier(number)}" in line:
                values = [it for it in line.split()[1:] if it[-1] != "="]
                return [f"object {it.replace('=', ' ')}" for it in values]
        return []

    def put_in(self):
        lines = [f"atr {'3B00' if self.at % 2 else '3B800181'}"]
        lines += [f"app {OTHER if self.number % 37 == 5 else AID}"]
        # the card that was pulled, or one that was not
        back = (EVERY // 2 - 7) if self.again % 2 else 7
        held = self.contents(self.number - back) if self.number % EVERY == EVERY // 2 else []
        if held:
            self.again += 1
            lines = [lines[0], f"app {AID}", *held]
        elif self.number % 43 != 17:
            lines += [f"object 9F7F {self.identifier(self.number)}"]
        if self.number % EVERY == 7 and not held:
            self.to_pull += 1
            kind, at = (".lost", ".pull")[self.to_pull % 2], self.to_pull // 2 % 18
            self.file.with_suffix(kind).write_text("x" * (at + 1))
        new = self.file.with_suffix(".new")
        new.write_text("\n".join([*lines, ""]))
        new.rename(self.file)

    def run(self):
        while True:
            self.must_change.clear()
            self.put_in()
            is_there = self.wait(scard.SCARD_STATE_PRESENT, True, 2)
            if is_there and self.wait(scard.SCARD_STATE_EXCLUSIVE, True, IDLE):
                self.wait(scard.SCARD_STATE_EXCLUSIVE, False)
            # the reader has removed the file of a card that it has pulled
            self.pulled += not self.file.exists()
            self.file.unlink(missing_ok=True)
            self.wait(scard.SCARD_STATE_PRESENT, False)
            for ending in (".pull", ".lost"):
                self.file.with_suffix(ending).unlink(missing_ok=True)
            # A command that finds no card ends before pcscd looks for the card. Without a pause
            # pcscd would take the next card for the old one.
            time.sleep(0.03)
            self.number += 1


def main(folder, readers):
    desks = [Desk(Path(folder), at) for at in range(int(readers))]
    for desk in desks:
        desk.start()
    for _ in sys.stdin:
        before = [it.number for it in desks]
        while any(it.number == number for it, number in zip(desks, before)):
            for desk, number in zip(desks, before):
                if desk.number == number:
                    desk.must_change.set()
            time.sleep(0.005)
        print(flush=True)
    print(*(sum(getattr(it, name) for it in desks) for name in ("number", "pulled", "again")))


if __name__ == "__main__":
    main(*sys.argv[1:])
