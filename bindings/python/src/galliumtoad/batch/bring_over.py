"""Brings a journal of version 0.3, which is a text, over to one of this version. This program stays
for one version. usage: python -m galliumtoad.batch.bring_over OLD NEW"""

import contextlib
import json
import os
import sys
import zlib
from datetime import datetime
from typing import Any, Iterator, Optional

from ..mistakes import program
from .in_file import BESIDE, refuse_existing
from .journal import Entry, Heading, Journal, create, link, sum_of
from .script import counted

_MAGIC = "# galliumtoad.batch "
# The state of a row after a line with this word. No run is at it any more.
_STATES = {"begin": "unsure", "card": "unsure", "unsure": "unsure", "failed": "failed",
           "unused": "free", "again": "free", "done": "done"}
_DECIDED = "decided"


class Old:
    """A journal of version 0.3: its rows, its cards and its log. Raises `ValueError`."""

    def __init__(self, path: str) -> None:
        self.path, self.number, self.rows = path, 1, dict[int, Entry]()
        self.cards, self.log = dict[str, tuple[int, float]](), list[tuple[Any, ...]]()
        with open(path, "rb") as file:
            data = file.read()
        texts = self._texts(data.replace(b"\r\n", b"\n"))
        self.heading = self._heading(next(texts, b"").decode(errors="replace"))
        for text in texts:
            self._enter(*[*text.decode(errors="replace").split(" ", 3), "", "", "", ""][:4])

    def _texts(self, data: bytes) -> Iterator[bytes]:
        """Yields the text of each line, whose sum is that of all texts up to it. A crash may have
        cut the last line. The first journals of version 0.3 have no sums."""
        *lines, rest = data.split(b"\n")
        has_sums, check = not lines or not lines[0].endswith(b"}"), 0
        for self.number, line in enumerate(lines, 1):
            text = line[:-9] if has_sums else line
            check = zlib.crc32(text, check)
            if has_sums and line[len(text) :] != b" %08x" % check:
                self._fail("its sum is wrong")
            yield text
        if has_sums and lines and rest[-10:-1] == b" %08x" % zlib.crc32(rest[:-10], check):
            self.number += 1
            self._fail("its end is wrong")

    def _heading(self, text: str) -> Heading:
        try:
            old = json.loads(text.removeprefix(_MAGIC) if text.startswith(_MAGIC) else "")
            bytes.fromhex(old["key"])
            place = os.path.join(os.path.dirname(os.path.realpath(self.path)), old["table"])
            place = os.path.normpath(place)
            return Heading(old["at"], old["of"], old["id_tag"], "", old["key"], place)
        except (ValueError, TypeError, KeyError, RecursionError):
            raise ValueError(f"{self.path} is not a journal of version 0.3") from None

    def _enter(self, word: str, number: str, time: str, note: str) -> None:
        try:
            row, at = int(number), datetime.fromisoformat(time)
            state, it = _STATES[word], self.rows.get(row, Entry(row))
            if row < 1 or at.tzinfo is None or it.begun is None and word != "begin":
                raise ValueError
        except (KeyError, ValueError):
            self._fail("no line of a journal")
        when, decided = at.timestamp(), int(note == _DECIDED)
        if word == "begin":
            digest, _, reader = note.partition(" ")
            it = it._replace(digest=digest, reader=reader, card=None, reason="", begun=when,
                             ended=when)
        elif word == "card":
            it, self.cards[note] = it._replace(card=note), (row, when)
        else:
            it = it._replace(ended=it.ended if decided else when, reason=note)
        self.rows[row] = it._replace(state=state, decided=decided, steps=it.steps + 1)
        self.log.append((row, it.steps + 1, when, None, word, note))

    def _fail(self, what: str) -> None:
        raise ValueError(f"{self.path} is damaged: line {self.number}: {what}")


def bring_over(old: Old, new: str) -> None:
    """Creates a journal of what an old one says: all of it, or none."""
    refuse_existing(new)
    made = f"{new}.{os.getpid()}.new"
    try:
        create(made, old.heading, is_named=False)
        with contextlib.closing(Journal(made)) as journal:
            journal.base.whole(lambda: _fill(journal, old))
        name = f"{old.heading.table}.{old.heading.at}-of-{old.heading.of}.journal"
        if os.path.islink(name) and os.path.realpath(name) == os.path.realpath(old.path):
            os.unlink(name)
        link(os.path.realpath(new), old.heading)
        with contextlib.suppress(FileNotFoundError):
            os.unlink(f"{new}-steps")  # of one that is gone
        os.rename(made, new)
    finally:
        for it in ("", *BESIDE):
            with contextlib.suppress(FileNotFoundError):
                os.unlink(made + it)


def _fill(journal: Journal, old: Old) -> None:
    cards = [(card, row, at) for card, (row, at) in old.cards.items()]
    rows: dict[str, list[tuple[Any, ...]]] = {
        "rows": [it.summed() for it in old.rows.values()],
        "cards": [(*it, sum_of(*it)) for it in cards],
        "log": [(*it, sum_of(*it)) for it in old.log],
    }
    for table in filter(rows.get, rows):
        journal.base.insert(table, rows[table])


@program
def main(words: Optional[list[str]] = None) -> int:
    """Runs the program. Returns its exit status."""
    if len(words := words or []) != 2:
        print(__doc__.splitlines()[1].partition(". ")[2], file=sys.stderr)
        return 2
    try:
        old = Old(words[0])
        bring_over(old, words[1])
    except (ValueError, OSError) as error:
        print(f"galliumtoad.batch.bring_over: {error}", file=sys.stderr)
        return 2
    print(f"{counted(len(old.rows), 'row')} brought over: use {words[1]} alone from now on")
    return 0


if __name__ == "__main__":
    raise SystemExit(main())
