"""A station of a batch, with a stand-in for its cards. Each line of FOLDER/NAME.cards is a card
with a row, and whether the row is whole on it. Its clock is wrong by SECONDS. It prints its run.

usage: station.py JOURNAL NAME FOLDER SEED SECONDS LEASE"""

import os
import random
import sys
import time
from pathlib import Path

from galliumtoad.batch import journal

place, name, folder, seed, seconds, lease = sys.argv[1:]
at_random, clock = random.Random(int(seed)), time.time
time.time = lambda: clock() + float(seconds)
journal.machine, journal.LEASE = lambda: name, float(lease)
file = os.open(Path(folder, f"{name}.cards"), os.O_WRONLY | os.O_APPEND | os.O_CREAT)


def write(card, row, how):
    os.write(file, f"{card} {row} {how}\n".encode())


def old_card():
    """A card that some station had in its reader before, or none."""
    path = at_random.choice([*Path(folder).glob("*.cards")])
    lines = path.read_text().splitlines()[-50:]
    return at_random.choice(lines).split()[0] if lines else None


def serve(it, row, number):
    """Writes a row to a card, unless the card has another row."""
    card = at_random.random() < 0.02 and old_card() or f"{name}-{seed}-{number}"
    if not it.begin(row, "00", name):
        return
    own = it.identify(row, card)
    if own != row:
        it.note(row, "unused", f"the card has {it.about(own)}" if own else "decided")
        return
    write(card, row, "part")
    time.sleep(at_random.uniform(0, 0.01))
    write(card, row, "whole")
    it.note(row, "done", "")


def opened():
    """The journal. A server that was killed may still be starting."""
    for _ in range(100):
        try:
            return journal.Journal(place, False, journal.Run(name))
        except OSError:
            time.sleep(0.2)
    return journal.Journal(place, False, journal.Run(name))


def main():
    it, number, renewed = opened(), 0, clock()
    it.start("")
    print(it.run, flush=True)
    while it.has_free():
        if clock() > renewed + float(lease) / 4:
            it.renew()
            renewed = clock()
        row = it.reserve(name)
        if row is None:
            time.sleep(0.05)
        else:
            number += 1
            serve(it, row, number)
    it.close()


main()
