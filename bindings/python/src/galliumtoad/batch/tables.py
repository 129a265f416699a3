"""The tables of a journal, which are the same in a file and on a server."""

from typing import Any, Callable, Protocol, TypeVar

T = TypeVar("T")
SCHEMA = 1
# `batch` has one row: the heading. A run has a lease, which ends at the time `until`. A row is
# free, taken by a run, begun, or ended: done, failed, unsure. A card keeps its row for good.
TABLES = (
    "CREATE TABLE batch (schema INTEGER NOT NULL, heading TEXT NOT NULL, sum BIGINT NOT NULL)",
    "CREATE TABLE runs (run TEXT PRIMARY KEY, station TEXT NOT NULL, operator TEXT NOT NULL,"
    " version TEXT NOT NULL, script TEXT NOT NULL, machine TEXT NOT NULL,"
    " until DOUBLE PRECISION NOT NULL)",
    "CREATE TABLE rows (number INTEGER PRIMARY KEY, key TEXT UNIQUE, cells TEXT,"
    " state TEXT NOT NULL, run TEXT, reader TEXT, card TEXT UNIQUE, digest TEXT,"
    " begun DOUBLE PRECISION, ended DOUBLE PRECISION, reason TEXT NOT NULL,"
    " decided INTEGER NOT NULL, steps INTEGER NOT NULL, sum BIGINT NOT NULL)",
    "CREATE INDEX rows_by_state ON rows (state, number)",
    "CREATE TABLE cards (card TEXT PRIMARY KEY, number INTEGER NOT NULL,"
    " at DOUBLE PRECISION NOT NULL, sum BIGINT NOT NULL)",
    "CREATE TABLE log (number INTEGER, step INTEGER, at DOUBLE PRECISION NOT NULL, run TEXT,"
    " word TEXT NOT NULL, note TEXT NOT NULL, sum BIGINT NOT NULL, PRIMARY KEY (number, step))",
)
EXISTS = "exists: without --new the batch continues"


class Database(Protocol):
    """An open journal. `for_row` ends a SELECT of a row to change, `for_free` that of a free one,
    and `now` is the time of the database's clock, in seconds since 1970. `notice` is what the
    operator has to know."""

    place: str
    folder: str
    for_row: str
    for_free: str
    now: str
    notice: str

    def whole(self, work: Callable[[], T], changes: bool = True, again: bool = True) -> T:
        """Carries out `work`, all of it or nothing. It is on disk at the end. If the database is
        lost meanwhile, it may be carried out once more, if it may `again`."""

    def execute(self, words: str, *values: Any) -> list[tuple[Any, ...]]:
        """Executes a statement, with a `?` for each value."""

    def change(self, words: str, *values: Any) -> int:
        """Executes a statement that changes rows. Returns how many it has changed."""

    def insert(self, table: str, rows: list[tuple[Any, ...]]) -> None:
        """Adds these rows to a table, at once. Raises `ValueError` if one is there already."""

    def version(self) -> object:
        """Changes if another process changes the journal."""

    def backup(self, path: str) -> None:
        """Copies the journal, also while others write it."""

    def drop(self) -> None:
        """Removes the journal."""

    def close(self) -> None: ...
