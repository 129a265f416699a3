"""A stand-in for pyscard: readers whose cards are changed, in a folder (STANDIN).

Each reader is a folder with a file `card`, the number of its card. Each card is a file of its
tables in `cards/`, written again after each command that changes them. When a connection ends, the
next card replaces the card. A card that is not used is replaced after a while. Some cards have
another profile, some are removed in the middle, and some store a wrong byte. Variables change this:

- STAYS: a card is replaced only after a while. LIES: it is never replaced before its use.
- AGAIN, `N*TIMES`: card N is inserted TIMES times before the next one.
- SWAPS: half of the cards are replaced just before a connection.
- MUTE: cards with these numbers, or readers and numbers, do not answer to reset.
- PULLED: each second card is removed, each one command later than the one before.
- WORN: all cards store a wrong byte.
- SLOW: an answer takes this number of seconds.

A reader with a file `away` is unplugged, and one with a file `out` has no card. While the file
`gone` exists, nothing answers.
"""

import json
import os
import time
from pathlib import Path

from galliumtoad import Card, Error

ROOM = Path(os.environ["STANDIN"])
AID = bytes.fromhex("A0000000031010")
ID_TAG = 0x9F7F
# How many times each card was inserted, and the insertions of a same card in each reader.
seen, counts = {}, {}


def begin(room):
    """Forgets what was inserted before, like a new process."""
    global ROOM
    ROOM = room
    seen.clear()
    counts.clear()


def readers():
    here = [it for it in ROOM.iterdir() if (it / "card").exists()]
    return sorted(it.name for it in here if not (it / "away").exists())


def number_in(reader):
    """The number of the card in a reader."""
    return int((ROOM / reader / "card").read_text())


def place_of(reader):
    """The card in a reader, and how often a same card was inserted."""
    return number_in(reader), counts.get(reader, 0)


def file_of(reader, number):
    return ROOM / "cards" / f"{reader}-{number}"


def change(reader, number):
    """Puts the card after this one into a reader, or this one once more."""
    same, _, times = os.environ.get("AGAIN", "-1*0").partition("*")
    seen[reader, number] = seen.get((reader, number), 0) + 1
    is_again = number == int(same) and seen[reader, number] < int(times)
    counts[reader] = counts.get(reader, 0) + is_again
    put_in(reader, number if is_again else number + 1)


def put_in(reader, number):
    """Replaces the card in a reader, in one step."""
    new = ROOM / reader / "new"
    new.write_text(str(number))
    new.rename(ROOM / reader / "card")


class InReader:
    """The card in a reader, powered."""

    def __init__(self, reader):
        self.reader, self.number = reader, number_in(reader)
        self.place = place_of(reader)
        file = file_of(reader, self.number)
        if self.number % 37 == 5:
            self.card = Card({})
        elif file.exists():
            stored = json.loads(file.read_text())
            self.card = Card({AID: {int(tag): bytes.fromhex(it) for tag, it in stored.items()}})
        else:
            number = {ID_TAG: f"{reader}-{self.number}".encode()}
            self.card = Card({AID: {} if self.number % 43 == 17 else number})
        self.is_pulled_at = self.number % 13 + 1 if self.number % 17 == 7 else None
        if "PULLED" in os.environ and self.number % 2:
            self.is_pulled_at = self.number // 2

    def transmit(self, tpdu):
        time.sleep(float(os.environ.get("SLOW", 0)))
        if (ROOM / self.reader / "away").exists():
            raise ConnectionError("the reader was unplugged")
        if self.is_pulled_at == 0:
            change(self.reader, self.number)
            raise ConnectionError("the card was removed")
        if self.is_pulled_at:
            self.is_pulled_at -= 1
        is_worn = self.number % 29 == 11 or "WORN" in os.environ
        if is_worn and tpdu[:4] == [0, 0xDA, 0, 0x50]:
            # a worn-out memory cell
            tpdu = [*tpdu[:-1], tpdu[-1] ^ 1]
        try:
            answer = self.card.tpdu(bytes(tpdu))
        except Error:
            answer = bytes.fromhex("6F00")
        if tpdu[1] == 0xDA and answer == b"\x90\x00":
            self.store()
        return list(answer)

    def store(self):
        found = {it.tag: it.value.hex() for it in self.card.entries(AID)}
        file = file_of(self.reader, self.number)
        new = file.with_name(file.name + ".new")
        new.write_text(json.dumps(found))
        new.rename(file)
