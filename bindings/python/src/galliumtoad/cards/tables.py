"""A card of a table: applications, and objects in each."""

from binascii import unhexlify
from pathlib import Path

from .. import Card, Error
from ..mistakes import mistakes

LEAST_ATR = b"\x3B\x00"


class Table:
    """What the lines of a file have said. Each line must leave a card that can be made."""

    def __init__(self) -> None:
        self.applications = dict[bytes, dict[int, bytes]]()
        self.locked = set[tuple[bytes, int]]()
        self.atr = b""

    def take(self, text: str) -> None:
        """Takes a line. Raises `ValueError`, and what a card refuses."""
        is_comment = text.startswith("#")
        kind, *words = [*filter(None, text.removesuffix("\r").split(" "))] or [""]
        if is_comment or not kind:
            return
        data = [unhexlify("" if it == "-" else it) for it in words]
        if (kind, len(data)) == ("app", 1) and data[0] not in self.applications:
            self.applications[data[0]] = {}
        elif (kind, len(data)) == ("atr", 1) and data[0] and not self.atr:
            self.atr = data[0]
        elif kind in ("object", "locked") and len(data) == 2:
            tag, value = data
            self.take_object(tag, value, kind == "locked")
        else:
            raise ValueError("not a line of a table")
        self.card()

    def take_object(self, tag: bytes, value: bytes, is_locked: bool) -> None:
        """Takes an object of the last application, in place of an earlier one with this tag."""
        if tag[:1] <= b"\0" or not self.applications:
            raise ValueError("not a line of a table")
        aid = list(self.applications)[-1]
        number = int.from_bytes(tag, "big")
        self.applications[aid][number] = value
        if is_locked:
            self.locked.add((aid, number))
        else:
            self.locked.discard((aid, number))

    def card(self) -> Card:
        """The card so far."""
        return Card(self.applications, self.locked)


def read_table(path: str) -> tuple[Card, bytes]:
    """Reads a card from a file. Returns it and its answer to reset. Raises `Mistake`."""
    table = Table()
    lines = mistakes(path)(Path(path).read_bytes)().decode("latin-1").split("\n")
    for line, text in enumerate(lines, 1):
        with mistakes(f"{path}: line {line}", ValueError, Error):
            table.take(text)
    return table.card(), table.atr or LEAST_ATR
