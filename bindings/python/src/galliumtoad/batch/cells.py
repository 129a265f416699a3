"""The cells of rows: a table as it is read, with its mistakes, and what a run writes. That comes
from the table, or from a journal that has imported it, with secrets from elsewhere."""

import argparse
import csv
import io
import json
import re
import shlex
import subprocess
from array import array
from heapq import nsmallest
from itertools import chain, islice
from secrets import token_bytes
from typing import Any, Iterator, Optional, Sequence

from .journal import Journal
from .script import Row, Script, Step, counted, digest, read, texts_of

Rows = Sequence[list[Step]]
MOST = 1000  # mistakes, then the search ends
_PARTS = 64  # of what is sorted at once
_SECONDS = 60  # for a command that returns secrets


class Table:
    """A table as it is read: its columns, which its first line names, and its rows, each with its
    line. A spreadsheet may write a line before it that names what is between cells. `wrong` gets
    the mistakes."""

    def __init__(self, path: str, wrong: list[str], data: Any = None) -> None:
        self.path, self.wrong, self.columns = path, wrong, list[str]()
        data = data or open(path, "rb")
        if data.peek(2)[:2] in (b"\xff\xfe", b"\xfe\xff"):
            raise ValueError(f"{path} is in UTF-16: save it in UTF-8")
        # A byte that is not UTF-8 becomes a character that no value can contain.
        file = io.TextIOWrapper(data, "utf-8-sig", "surrogateescape", "")
        first = file.readline()
        named = re.match(r"sep=([^\w\s\"]|\t)\r?\n", first)
        between = named[1] if named else max(",;\t", key=first.count)
        self._source = csv.reader(chain([first], file), delimiter=between, strict=True)
        self._rows = self._read(bool(named))
        for _, self.columns in islice(self._rows, 1):
            pass

    def _read(self, skips: bool) -> Iterator[tuple[int, list[str]]]:
        last = 0
        try:
            for cells in islice(self._source, skips, None):
                line, last = last + 1, self._source.line_num  # a quoted cell may contain lines
                yield line, cells
        except csv.Error as error:
            self.wrong.append(f"{self.path} line {self._source.line_num}: {error}")

    def __iter__(self) -> Iterator[tuple[int, Row]]:
        has_row = bool(self.wrong)
        for line, cells in self._rows:
            has_row |= bool(cells)
            if cells and len(cells) != len(self.columns):
                has, wanted = counted(len(cells), "cell"), f"{len(self.columns)} columns"
                self.wrong.append(f"{self.path} line {line}: {has}, but {wanted}")
            elif cells:
                yield line, dict(zip(self.columns, cells))
            if len(self.wrong) > MOST:
                break
        if not has_row and not self.wrong:
            self.wrong.append(f"{self.path} has no row")


class Doubts:
    """What `--allow-duplicates` allows, and keys that are there twice. It keeps 12 bytes of a row,
    and of each identifier in it, in parts by their sums."""

    def __init__(self, script: Script, key: str, allows: bool) -> None:
        self.texts, self.key, self.allows = texts_of(script), key, allows
        self._salt, self._seen = token_bytes(16), dict[str, list[tuple[Any, Any]]]()

    def look(self, line: int, where: str, row: Row) -> Iterator[str]:
        """Yields the doubts of a row alone."""
        if not self.allows:
            yield from (f"{where}, column {it!r}: empty" for it in self.texts if row.get(it) == "")
            self._add("", line, *row.values())
        for name, cell in row.items():
            if name == self.key or name.lower() == "id" and not self.allows:
                self._add(name, line, cell)
        if self.key and (fault := _fault_of_key(row.get(self.key))):
            yield f"{where}, column {self.key!r}: {fault}"

    def _add(self, name: str, line: int, *said: str) -> None:
        if name not in self._seen:
            self._seen[name] = [(array("Q"), array("I")) for _ in range(_PARTS)]
        check = int.from_bytes(digest(said, self._salt), "big")
        sums, lines = self._seen[name][check % _PARTS]
        sums.append(check)
        lines.append(line)

    def twice(self, path: str) -> Iterator[str]:
        """Yields the rows that are there twice, and their keys and identifiers."""
        same = set[int]()
        for name in sorted(self._seen):
            for line, before in nsmallest(MOST, self._pairs(name)):
                if not name:
                    same.add(line)
                    yield f"{path} line {line}: the same row as {path} line {before}"
                elif line not in same:
                    yield (f"{path} line {line}, column {name!r}: the same as in {path} line"
                           f" {before}")

    def _pairs(self, name: str) -> Iterator[tuple[int, int]]:
        """Yields each line with a sum that was there before, and the first line with it."""
        for sums, lines in self._seen[name]:
            in_order, first = sorted(sums), dict[int, int]()
            twice = {one for one, next_one in zip(in_order, in_order[1:]) if one == next_one}
            for it, line in zip(sums, lines):
                if it in twice and (before := first.setdefault(it, line)) != line:
                    yield line, before


def _fault_of_key(cell: Optional[str]) -> str:
    if cell is None:
        return "no such column"
    if not cell:
        return "empty"
    return "" if cell.isprintable() else "a character that can't be printed"


class Checked:
    """The rows of a table with a script, as they are read, and all mistakes in them. Their secrets
    are in the table, or come from elsewhere. If they are to come `later`, the rows lack them."""

    def __init__(self, path: str, given: argparse.Namespace, key: str, later: bool) -> None:
        self.path, self.wrong, self.later = path, list[str](), later
        self.table = Table(path, self.wrong)
        columns = self.table.columns
        self.script = Script(given.script, read(given.script), columns)
        self.wrong += self.script.wrong if columns else []
        self.key = key if key in columns else ""
        if key and columns and not self.key:
            self.wrong.append(f"{path} has no column {key!r}, which is the key")
        lacks = sorted(self.script.secrets.difference(columns))
        self.secrets = secrets_of(given, self.key, self.script)
        if lacks and not (later or self.secrets):
            self.wrong.append(f"{path} has no column {lacks[0]!r}: --secret-from has to join it")
        self.doubts = Doubts(self.script, self.key, given.allow_duplicates)

    def __iter__(self) -> Iterator[tuple[Row, list[Step]]]:
        """Yields each row with its steps. Raises `ValueError` with all mistakes at the end."""
        for line, row in self.table:
            where = f"{self.path} line {line}"
            self.wrong += self.doubts.look(line, where, row)
            if self.secrets and not self.later:
                try:
                    row = {**row, **self.secrets.of(row.get(self.key, ""))}
                except ValueError as error:
                    self.wrong.append(f"{where}: {error}")
            steps = self.script.steps(row, where, self.wrong)
            if not self.wrong:
                yield row, steps
        self.wrong += islice(self.doubts.twice(self.path), MOST)
        if self.wrong:
            raise ValueError("\n".join(dict.fromkeys(self.wrong)))


def secrets_of(given: argparse.Namespace, key: str, script: Script) -> Optional["Secrets"]:
    """Returns where the secrets come from, if not from the table. Raises `ValueError`."""
    if not given.secret_from:
        return None
    if not key or not script.secrets:
        lacks = "no column is secret in the script" if key else "the journal has no --key"
        raise ValueError(f"--secret-from has nothing to join: {lacks}")
    return Secrets(given.secret_from, key, script.secrets)


class Secrets:
    """The secret columns of rows, by the customer's key. They are in a table, which is read at the
    start. If `source` begins with `|`, a command prints one for the key that it gets."""

    def __init__(self, source: str, key: str, columns: set[str]) -> None:
        self.source, self.key, self.columns = source, key, columns
        self._found = {} if source[0] == "|" else self._read(source, None)

    def _read(self, name: str, data: Any) -> dict[str, Row]:
        found, wrong = dict[str, Row](), list[str]()
        table = Table(name, wrong, data)
        lacks = {self.key, *self.columns}.difference(table.columns)
        if lacks and not wrong:
            raise ValueError(f"{name} has no column {', '.join(map(repr, sorted(lacks)))}")
        for line, row in table:
            if row[self.key] in found:
                wrong.append(f"{name} line {line}, column {self.key!r}: a key once more")
            found[row[self.key]] = {it: row[it] for it in self.columns}
        if wrong:
            raise ValueError("\n".join(wrong))
        return found

    def of(self, key: str) -> Row:
        """Returns the secrets of a key. Raises `ValueError`."""
        found = self._found
        if self.source[0] == "|":
            words = [*shlex.split(self.source[1:]), key]
            try:
                done = subprocess.run(words, stdin=subprocess.DEVNULL, stdout=subprocess.PIPE,
                                      timeout=_SECONDS)
            except subprocess.TimeoutExpired:
                raise ValueError(f"{words[0]} takes more than {_SECONDS} seconds") from None
            if done.returncode:
                raise ValueError(f"{words[0]} ended with {done.returncode}")
            said: Any = io.BytesIO(done.stdout)
            found = self._read(words[0], io.BufferedReader(said))
        if key not in found:
            raise ValueError(f"{self.source} has no secret for the key {key}")
        return found[key]


class Imported(Sequence[list[Step]]):
    """The rows that a journal has imported."""

    def __init__(self, journal: Journal, script: Script, secrets: Optional[Secrets]) -> None:
        self.journal, self.script, self.secrets = journal, script, secrets

    def __len__(self) -> int:
        return sum(self.journal.counts().values())

    def __getitem__(self, at: Any) -> Any:
        """Returns the steps of the row `at + 1`. Raises `ValueError`, without a value."""
        it, wrong = self.journal.entry(at + 1), list[str]()
        row = cells_of(self.journal, it.cells)
        if self.secrets:
            row.update(self.secrets.of(it.key or ""))
        steps = self.script.steps(row, f"row {at + 1}", wrong)
        if wrong or len(steps) != len(self.script.lines):
            raise ValueError("\n".join(wrong) or f"row {at + 1} lacks a secret: --secret-from")
        return steps


def cells_of(journal: Journal, cells: Optional[str]) -> dict[str, str]:
    """Returns the cells of a row that was imported, by their columns."""
    return dict(zip(journal.heading.columns, json.loads(cells or "[]")))


def text_of(row: Row, columns: tuple[str, ...]) -> str:
    """Returns the text that a journal has of the cells in these columns. It is in ASCII."""
    return json.dumps([row[it] for it in columns])
