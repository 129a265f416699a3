"""The journal of a batch: which row of a table went to which card, and how it ended. Each step is
on disk before the next. A run has a lease, which it renews. When a lease ends, a row that was taken
is free again, and a row that had begun is unsure. Each entry has a sum of its fields."""

import contextlib
import functools
import json
import math
import os
import secrets
import socket
import weakref
import zlib
from collections import Counter
from dataclasses import asdict, dataclass, replace
from itertools import islice
from pathlib import Path
from typing import Any, Callable, Iterable, Iterator, NamedTuple, NoReturn, Optional

from .. import __version__
from . import in_file
from .tables import SCHEMA, Database, T

LEASE = 60.0  # seconds
PAGE = 1000  # rows that are read or added at once
_ENDS = {"done": "done", "failed": "failed", "unsure": "unsure", "unused": "free"}
LAPSED = "the run ended before the row did"
_MARK = b"\0galliumtoad.batch run "  # names a socket that a process has as long as it lives


@dataclass(frozen=True)
class Heading:
    """What a journal is of: the rows `at`, `at + of`, `at + 2 * of` and so on of a table, whose
    path begins in the journal's folder. `key` is the column of the customer's key, and `salt` that
    of the sums of rows. `columns` are what was imported, with a script of the sums `script` and
    `formats`; without them the cells are in the table alone."""

    at: int
    of: int
    id_tag: Optional[int]
    key: str
    salt: str
    table: str
    columns: tuple[str, ...] = ()
    script: str = ""
    formats: str = ""

    def meets(self, at: int, of: int) -> bool:
        """Whether a journal of other rows has one of these, if the table is long enough."""
        return (self.at - at) % math.gcd(self.of, of) == 0


class Entry(NamedTuple):
    """A row. `digest` is the sum of what it writes. At first it ends as it begins. The log has
    `steps` lines of it."""

    number: int
    key: Optional[str] = None
    cells: Optional[str] = None
    state: str = "free"
    run: Optional[str] = None
    reader: Optional[str] = None
    card: Optional[str] = None
    digest: Optional[str] = None
    begun: Optional[float] = None
    ended: Optional[float] = None
    reason: str = ""
    decided: int = 0
    steps: int = 0
    sum: int = 0

    def summed(self) -> "Entry":
        return self._replace(sum=sum_of(*self[:-1]))


class Run(NamedTuple):
    """Who wrote a row."""

    station: str = ""
    operator: str = ""
    version: str = ""
    script: str = ""


_FIELDS = ", ".join(Entry._fields)


def sum_of(*fields: Any) -> int:
    return zlib.crc32(repr(fields).encode())


def plain(text: str) -> str:
    """Returns a text in a line that each database takes."""
    return " ".join(text.replace("\0", " ").split()).encode(errors="backslashreplace").decode()


def is_file(place: str) -> bool:
    return "://" not in place


def place_of(table: str) -> str:  # a pipe has only its name
    return os.path.realpath(table) if os.path.isfile(table) else os.path.abspath(table)


@functools.cache
def machine() -> str:
    """Names this machine, since its start, with the namespace of its sockets."""
    try:
        boot = Path("/proc/sys/kernel/random/boot_id").read_text().strip()
        return f"{boot} {os.stat('/proc/self/ns/net').st_ino}"
    except OSError:
        return secrets.token_hex(8)  # of this process alone: its lease decides


def is_gone(run: str, where: str) -> bool:
    """Whether a run's process was on this machine, and has ended."""
    if where != machine():
        return False
    with socket.socket(socket.AF_UNIX, socket.SOCK_DGRAM) as asks:
        try:
            asks.connect(_MARK + run.encode())
        except ConnectionRefusedError:
            return True
    return False


def heading_of(place: str, row: Optional[tuple[Any, ...]]) -> Heading:
    """Reads the row of a journal's heading. Raises `ValueError`."""
    if row is None or row[2] != sum_of(*row[:2]):
        raise ValueError(f"{place} is damaged: the sum of its heading is wrong")
    if row[0] != SCHEMA:
        raise ValueError(f"{place} has schema {row[0]}; this program has {SCHEMA}")
    found = json.loads(row[1])
    found["columns"] = tuple(found["columns"])
    if is_file(place):
        folder = os.path.dirname(os.path.realpath(place))
        found["table"] = os.path.normpath(os.path.join(folder, found["table"]))
    return Heading(**found)


def refuse_a_second(path: str, table: str, at: int, of: int) -> None:
    """Raises `ValueError` if a journal beside this one or the table, or a link, has its rows."""
    place, mine = place_of(table), os.path.realpath(path)
    own, others = os.stat(mine).st_ino if os.path.exists(mine) else 0, list[str]()
    for folder in sorted({os.path.dirname(it) for it in (mine, place)}):
        for it in os.scandir(folder):
            # The end of a look at a file of this journal would drop its locks.
            if it.is_file() and it.stat().st_ino != own and not it.name.endswith(in_file.BESIDE):
                other = os.path.realpath(it.path)
                with contextlib.suppress(ValueError):  # no journal
                    found = heading_of(other, in_file.heading_in(it.path))
                    if found.table == place and found.meets(at, of):
                        others.append(other)
    if others:
        raise ValueError(f"{table} has another journal, {others[0]}")


def create(place: str, heading: Heading, only_looks: bool = False, is_named: bool = True) -> None:
    """Creates a journal, with its name beside its table. `only_looks` changes nothing. Raises
    `ValueError` if it exists."""
    kept = heading
    if is_file(place):
        in_file.refuse_existing(place)
        folder = os.path.dirname(os.path.realpath(place))
        kept = replace(heading, table=os.path.relpath(heading.table, folder))
        if is_named and not only_looks:
            link(os.path.realpath(place), heading)
    text = json.dumps(asdict(kept))
    if not only_looks:
        _home(place).create(place, (SCHEMA, text, sum_of(SCHEMA, text)))


def link(place: str, heading: Heading) -> None:
    """Names a journal in another folder beside its table, if possible."""
    table, beside = heading.table, os.path.dirname(heading.table)
    is_apart = os.path.isfile(table) and beside != os.path.dirname(place)
    if is_apart and os.access(beside, os.W_OK):
        name = f"{table}.{heading.at}-of-{heading.of}.journal"
        if os.path.islink(name) and (os.readlink(name) == place or not os.path.exists(name)):
            os.unlink(name)
        with contextlib.suppress(PermissionError):  # on a disk without links
            os.symlink(place, name)


def _home(place: str) -> Any:
    """Returns the module of a journal's database."""
    if is_file(place):
        return in_file
    from . import on_server  # which needs psycopg2

    return on_server


def whole(method: Callable[..., T]) -> Callable[..., T]:
    """Makes of a method one step of the database."""
    @functools.wraps(method)
    def call(self: "Journal", *words: Any) -> T:
        return self.base.whole(lambda: method(self, *words), not self.only_looks)
    return call


def look(method: Callable[..., T]) -> Callable[..., T]:
    """Makes of a method one look at the database, which hinders nobody."""
    @functools.wraps(method)
    def call(self: "Journal", *words: Any) -> T:
        return self.base.whole(lambda: method(self, *words), False)
    return call


class Journal:
    """A journal, for all threads of a process. A refused one does not change, and `only_looks`
    opens one that can't be written. `writes` counts the changes of rows by this process, and `more`
    the rows of a table that are not in it yet."""

    def __init__(self, place: str, only_looks: bool = False, who: Run = Run()) -> None:
        self.place, self.only_looks, self.writes, self.more = place, only_looks, 0, 0
        self.run = secrets.token_hex(8)
        self._mark = socket.socket(socket.AF_UNIX, socket.SOCK_DGRAM)
        self.base: Database = _home(place).opened(place, only_looks)
        weakref.finalize(self, _left, self._mark, self.base)
        self.heading, self.who = heading_of(place, self._heading()), who
        self._has_run, self._own = False, set[str]()  # whose lease lasts

    @look
    def _heading(self) -> Optional[tuple[Any, ...]]:
        return [*self.base.execute("SELECT * FROM batch"), None][0]

    def start(self, script: str) -> None:
        """Begins a run that takes rows. `script` is the sum of what it carries out."""
        self._mark.bind(_MARK + self.run.encode())
        self._own.add(self.run)
        self.who = self.who._replace(script=script)
        self._begin_lease()

    @whole
    def _begin_lease(self) -> None:
        self._start(self._now() + LEASE)

    def _start(self, until: float) -> None:
        known = self.base.execute("SELECT 1 FROM runs WHERE run = ?", self.run)
        if not known:
            station, operator = plain(self.who.station or socket.gethostname()), self.who.operator
            more = plain(operator), __version__, self.who.script, machine(), until
            self.base.insert("runs", [(self.run, station, *more)])
        self._has_run = True

    @whole
    def renew(self) -> None:
        """Begins the lease of this run again."""
        self._renew()

    def _renew(self) -> None:
        words = f"UPDATE runs SET until = {self.base.now} + {LEASE} WHERE run = ?"
        self.base.execute(words, self.run)

    @whole
    def end(self) -> None:
        """Ends the lease. A row that was taken is free, and one that has begun is unsure."""
        self._own.clear()
        for it in self._entries("WHERE state = 'taken' AND run = ?", self.run):
            self._change(it, state="free", run=None, reader=None)
        self.base.execute("UPDATE runs SET until = 0 WHERE run = ?", self.run)

    def close(self) -> None:
        """Gives all rows up, and ends the lease."""
        with contextlib.suppress(OSError, ValueError):  # the lease ends by itself
            if self._has_run:
                self.end()
        _left(self._mark, self.base)

    # Rows. Each of these is one step.

    @whole
    def reserve(self, reader: str, wanted: Optional[int] = None) -> Optional[int]:
        """Takes this free row, or the first one, for a reader, unless it has taken one already.
        Returns None if none is free, or this run has ended."""
        if not self._own:
            return None
        mine = (it.number for it in self._at_work() if it.state == "taken"
                and (it.run, it.reader) == (self.run, plain(reader)))
        if (taken := next(mine, None)) and wanted in (None, taken):
            return taken
        which, values = ("", ()) if wanted is None else (" AND number = ?", (wanted,))
        found = self._entries(f"WHERE state = 'free'{which} ORDER BY number LIMIT 1"
                              f"{self.base.for_free}", *values)
        for it in found:
            self._change(it, state="taken", run=self.run, reader=plain(reader))
        return found[0].number if found else None

    @whole
    def release(self, row: int) -> None:
        """Gives up a row that has not begun."""
        it, _ = self._locked(row)
        if it.state == "taken" and it.run == self.run:
            self._change(it, state="free", run=None, reader=None)

    @whole
    def begin(self, row: int, digest: str, reader: str) -> bool:
        """Notes that a row begins. Returns whether it may: its lease has not ended meanwhile."""
        it, now = self._locked(row)
        if it.run != self.run or it.state not in ("taken", "begun"):
            return False
        self._renew()
        self._change(it, ("begin", plain(reader), now), state="begun", reader=plain(reader),
                     card=None, digest=digest, begun=now, ended=now, reason="", decided=0)
        return True

    @whole
    def identify(self, row: int, card: str) -> Optional[int]:
        """Notes the card of a row, unless the card has another row. Returns the card's row, or None
        if a person has decided about this row meanwhile."""
        it, now = self._locked(row)
        if not self._is_mine(it):
            return None
        is_own = self.base.change(
            "INSERT INTO cards VALUES (?, ?, ?, ?) ON CONFLICT (card) DO UPDATE SET"
            " at = excluded.at, sum = excluded.sum WHERE cards.number = excluded.number",
            card, row, now, sum_of(card, row, now))
        if not is_own:
            return int(self._cards("WHERE card = ?", card)[0][1])
        self._change(it, ("card", card, now), card=card)
        return row

    @whole
    def note(self, row: int, word: str, reason: str) -> bool:
        """Notes how a row ended. Returns False if a person has decided about it meanwhile."""
        it, now = self._locked(row)
        if it.run == self.run and it.state == _ENDS[word] and not it.decided:
            return True  # the database was lost after it had noted that
        if not self._is_mine(it):
            return False
        self._change(it, (word, plain(reason), now), state=_ENDS[word], ended=now,
                     reason=plain(reason))
        return True

    @whole
    def decide(self, row: int, word: str) -> None:
        """Notes that a row is `done` or free `again`. Raises `ValueError` for one that can't be
        decided."""
        it, now = self._locked(row)
        it = self._seen(it)
        if it.state in ("free", word):
            what = "has not begun" if it.state == "free" else f"is {word}"
            raise ValueError(f"row {row} {what}")
        if it.state == "begun":
            raise ValueError(f"row {row} is in progress")
        self._start(0)
        self._change(it, (word, "decided", now), state="done" if word == "done" else "free",
                     decided=1, reason="decided")

    def _is_mine(self, it: Entry) -> bool:
        return it.run == self.run and it.state in ("begun", "unsure") and not it.decided

    def _at_work(self) -> list[Entry]:
        """Returns the rows that are taken or have begun. Gives up those whose run has ended."""
        words = "WHERE state IN ('taken', 'begun')"
        found = self._entries(words)
        others = {it.run for it in found} - self._own
        for run in sorted(map(str, others and others - self._live())):
            for it in self._entries(f"{words} AND run = ?{self.base.for_free}", run):
                if it.state == "taken":
                    self._change(it, state="free", run=None, reader=None)
                else:
                    line = "unsure", LAPSED, self._now()
                    self._change(it, line, state="unsure", reason=LAPSED)
        return found

    # What was noted.

    @look
    def entry(self, row: int) -> Entry:
        """Returns a row as it is seen now: one that is only taken is free, and one that has begun
        is unsure once its run has ended. A row that is not there has not begun."""
        return self._seen(self._entry(row))

    def state(self, row: int) -> str:
        return self.entry(row).state

    @look
    def has_begun(self) -> bool:
        """Whether any row has ever begun."""
        return bool(self.base.execute("SELECT 1 FROM log LIMIT 1"))

    @look
    def about(self, row: int) -> str:
        """Returns a row with its state, and with its station if that is another one."""
        it = self._seen(self._entry(row))
        found: dict[Any, str] = {run: name for run, name in
                                 self.base.execute("SELECT run, station FROM runs")}
        where = "" if found.get(it.run) in (None, found[self.run]) else f" at {found[it.run]}"
        return f"row {row}, which is {'in progress' if it.state == 'begun' else it.state}{where}"

    @look
    def counts(self) -> Counter[str]:
        """Counts the rows by their state."""
        rows = self.base.execute("SELECT state, count(*) FROM rows GROUP BY state")
        found = Counter[str]({state: count for state, count in rows})
        found["free"] += found.pop("taken", 0) + self.more
        if found["begun"]:
            begun = map(self._seen, self._entries("WHERE state = 'begun'"))
            over = sum(it.state == "unsure" for it in begun)
            found.update(unsure=over, begun=-over)
        return +found

    @look
    def has_free(self) -> bool:
        """Whether a row is free, or may be as long as it is only taken."""
        words = "SELECT 1 FROM rows WHERE state IN ('free', 'taken') LIMIT 1"
        return bool(self.base.execute(words))

    def undecided(self) -> Iterator[Entry]:
        """Yields the failed and unsure rows that no run is at."""
        found = self._paged("state IN ('failed', 'unsure', 'begun')")
        return (it for it in found if it.state != "begun")

    def begun(self) -> Iterator[Entry]:
        """Yields the rows that have ever begun, in their order."""
        return self._paged("begun IS NOT NULL")

    def all(self) -> Iterator[Entry]:
        return self._paged("number > 0")

    def _paged(self, which: str) -> Iterator[Entry]:
        last, size = 0, PAGE
        while size == PAGE:
            found = self._page(f"WHERE {which} AND number > ? ORDER BY number LIMIT {PAGE}", last)
            yield from found
            size, last = len(found), found[-1].number if found else last

    @look
    def _page(self, words: str, last: int) -> list[Entry]:
        return [*map(self._seen, self._entries(words, last))]

    @look
    def cards(self) -> list[tuple[Any, ...]]:
        """Returns each card, its row, and since when."""
        return self._cards("")

    @look
    def runs(self) -> dict[str, Run]:
        found = self.base.execute("SELECT run, station, operator, version, script FROM runs")
        return {run: Run(*more) for run, *more in found}

    @look
    def history(self, row: int) -> list[tuple[Any, ...]]:
        """Returns each step of a row: its number, time, run, word and note."""
        found = self.base.execute("SELECT * FROM log WHERE number = ? ORDER BY step", row)
        steps = [it[1] for it in found if it[-1] == sum_of(*it[:-1])]
        if steps != [*range(1, self._entry(row).steps + 1)]:
            self._fail(f"a sum in the log of row {row} is wrong")
        return [it[1:-1] for it in found]

    def version(self) -> object:
        """Changes if anyone changes the journal."""
        return self.writes, self.base.version()

    # Rows from a table.

    @whole
    def sync(self, keys: list[Optional[str]]) -> None:
        """Makes the rows those of a table with these keys, or if it `only_looks` notes how many
        more those are. Raises `ValueError` if a row that has begun would get another key."""
        at, of = self.heading.at, self.heading.of
        wanted = {it: keys[it - 1] for it in range(at, len(keys) + 1, of)}
        if self.only_looks:
            [(count,)] = self.base.execute("SELECT count(*) FROM rows")
            self.more = len(wanted) - count
            return
        found = {it.number: it for it in self._entries("")}
        for row in found.keys() - wanted.keys():
            self.base.execute("DELETE FROM rows WHERE number = ?", row)
        others = [self._locked(it.number)[0] for it in found.values()
                  if it.key != wanted.get(it.number, it.key)]
        for it in others:
            if it.state != "free":
                raise ValueError(f"{self.place}: row {it.number} has begun with another key")
            self._change(it, key=None)  # another row may get it
        for it in others:
            self._change(self._entry(it.number), key=wanted[it.number])
        new = [Entry(it, key).summed() for it, key in wanted.items() if it not in found]
        for first in range(0, len(new), PAGE):
            self.base.insert("rows", [*new[first : first + PAGE]])

    def add(self, rows: Iterable[tuple[Optional[str], str]]) -> int:
        """Adds rows with these keys and cells, all or none. Returns how many."""
        def work() -> int:
            [(last,)] = self.base.execute("SELECT coalesce(max(number), 0) FROM rows")
            made = (Entry(it, *row).summed() for it, row in enumerate(rows, last + 1))
            count = 0
            while part := [*islice(made, PAGE)]:
                self.base.insert("rows", [*part])
                count += len(part)
            return count

        return self.base.whole(work, again=False)

    # Within a step.

    def _fail(self, what: str) -> NoReturn:
        raise ValueError(f"{self.place} is damaged: {what}")

    def _now(self) -> float:
        [(now,)] = self.base.execute(f"SELECT {self.base.now}")
        return float(now)

    def _entries(self, words: str, *values: Any) -> list[Entry]:
        found = self.base.execute(f"SELECT {_FIELDS} FROM rows {words}", *values)
        return [*map(self._checked, found)]

    def _checked(self, fields: Iterable[Any]) -> Entry:
        it = Entry._make(fields)
        if it.sum != sum_of(*it[:-1]):
            self._fail(f"the sum of row {it.number} is wrong")
        return it

    def _entry(self, row: int) -> Entry:
        return [*self._entries("WHERE number = ?", row), Entry(row)][0]

    def _locked(self, row: int) -> tuple[Entry, float]:
        """Returns a row, which no other run changes up to the end of the step, and the time."""
        words = f"SELECT {_FIELDS}, {self.base.now} FROM rows WHERE number = ?{self.base.for_row}"
        for *fields, now in self.base.execute(words, row):
            return self._checked(fields), float(now)
        return Entry(row), 0

    def _cards(self, words: str, *values: Any) -> list[tuple[Any, ...]]:
        found = self.base.execute(f"SELECT * FROM cards {words}", *values)
        for card, *more, check in found:
            if check != sum_of(card, *more):
                self._fail("the sum of a card is wrong")
        return found

    def _seen(self, it: Entry) -> Entry:
        if it.state == "taken":
            return it._replace(state="free")
        if it.state == "begun" and it.run not in self._live():
            return it._replace(state="unsure", reason=LAPSED)
        return it

    def _live(self) -> set[str]:
        """Returns the runs whose lease has not ended, with this one."""
        words = f"SELECT run, machine FROM runs WHERE until > {self.base.now}"
        found = self.base.execute(words)
        return {*self._own, *(it for it, where in found if not is_gone(it, where))}

    def _change(self, it: Entry, said: tuple[Any, ...] = (), **fields: Any) -> None:
        """Changes a row, and adds what is `said`, a word, a text and a time, to its log."""
        new = it._replace(steps=it.steps + bool(said), **fields).summed()
        named = [*fields, "steps", "sum"]
        words = f"UPDATE rows SET {' = ?, '.join(named)} = ? WHERE number = ?"
        self.base.change(words, *(getattr(new, name) for name in named), it.number)
        if said:
            word, text, at = said
            line = (it.number, new.steps, at, self.run, word, text)
            words = "INSERT INTO log VALUES (?, ?, ?, ?, ?, ?, ?)"
            self.base.change(words, *line, sum_of(*line))
        self.writes += 1


def _left(mark: socket.socket, base: Database) -> None:
    mark.close()
    base.close()
