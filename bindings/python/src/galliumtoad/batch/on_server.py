"""A journal on a PostgreSQL server, for many stations. A connection that is lost is made again for
a while, and the step is carried out once more."""

import contextlib
import threading
import time
from typing import Any, Callable, Iterator
from urllib.parse import parse_qsl, urlsplit

import psycopg2
from psycopg2 import errors, extras

from .tables import EXISTS, TABLES, T

PATIENCE = 20.0  # seconds without a server, then a run ends
_PAUSE = 0.5
_SOON = 2.0  # a look at what others have written, for a report
# What a server needs so that a commit is on disk; and how long it may be silent.
_NEEDED = ("fsync", "full_page_writes")
_LASTING = ("28", "3D", "53")  # classes of faults that do not pass: rights, no database, full disk
_HOW = {"connect_timeout": 10, "keepalives_idle": 10, "keepalives_interval": 5,
        "keepalives_count": 3, "tcp_user_timeout": 30000,
        "application_name": "galliumtoad.batch"}


def refuse_password(place: str) -> None:
    """Raises `ValueError` for a URL with a password, which other users see."""
    parts = urlsplit(place)
    named = [name for name, _ in parse_qsl(parts.query, keep_blank_values=True)]
    if parts.password is not None or any(it.endswith("password") for it in named):
        raise ValueError("a password in a URL is seen by all users: use a service or a passfile")


def name_of(place: str) -> str:
    """Returns the name of the database, or of the service."""
    parts = urlsplit(place)
    return parts.path.strip("/") or dict(parse_qsl(parts.query)).get("service", "") or "postgresql"


def first_line(error: BaseException) -> str:
    return (str(error).strip() or type(error).__name__).split("\n")[0]


def create(place: str, heading: tuple[Any, ...]) -> None:
    """Creates the tables of a journal. Raises `ValueError` if they are there."""
    made = Server(place, False)

    def work() -> None:
        for it in TABLES:
            made.execute(it)
        made.insert("batch", [heading])

    with contextlib.closing(made):
        made.whole(work, again=False)


class Server:
    """A journal on a server, for all threads of a process."""

    for_row, for_free = " FOR UPDATE", " FOR UPDATE SKIP LOCKED"
    now = "CAST(extract(epoch FROM clock_timestamp()) AS double precision)"

    def __init__(self, place: str, only_looks: bool) -> None:
        refuse_password(place)
        self.place, self.folder, self.only_looks = place, f"{name_of(place)}.cards", only_looks
        self._alone, self._patience = threading.RLock(), _PAUSE  # at the start there is no card
        self._connection: Any = None
        off = [it for it in (*_NEEDED, "data_checksums") if self._shown(it) != "on"]
        self.notice = "the server has no sums of pages (data_checksums)" if off else ""
        if off[:1] != ["data_checksums"] and off:
            self.close()
            raise ValueError(f"the server of {place} may lose what it has noted: {off[0]} is off")

    def _shown(self, name: str) -> Any:
        return self.whole(lambda: self.execute(f"SHOW {name}"), changes=False)[0][0]

    @contextlib.contextmanager
    def _faults(self) -> Iterator[None]:
        """Makes the errors of PostgreSQL those of a file, each in a line."""
        try:
            yield
        except errors.DuplicateTable:
            raise ValueError(f"{self.place} {EXISTS}") from None
        except errors.UndefinedTable:
            raise ValueError(f"there is no journal {self.place}: --new creates it") from None
        except (errors.DataCorrupted, errors.IndexCorrupted, psycopg2.IntegrityError) as error:
            raise ValueError(f"{self.place} is damaged: {first_line(error)}") from None
        except psycopg2.Error as error:
            raise OSError(f"{self.place}: {first_line(error)}") from None

    def _connect(self) -> None:
        made = psycopg2.connect(self.place, **_HOW)
        made.set_session("READ COMMITTED", readonly=self.only_looks)
        with made, made.cursor() as cursor:
            cursor.execute("SET synchronous_commit = on")
        self._connection = made

    def whole(self, work: Callable[[], T], changes: bool = True, again: bool = True) -> T:
        until = time.monotonic() + self._patience
        with self._alone, self._faults():
            while True:
                try:
                    if self._connection is None or self._connection.closed:
                        self._connect()
                    with self._connection:
                        found = work()
                    self._patience = PATIENCE
                    return found
                except (psycopg2.OperationalError, psycopg2.InterfaceError) as error:
                    self._drop_connection()
                    is_lasting = (error.pgcode or "")[:2] in _LASTING
                    if not again or is_lasting or time.monotonic() > until:
                        self._patience = 0  # the next step need not wait again
                        raise
                time.sleep(_PAUSE)

    def _drop_connection(self) -> None:
        with contextlib.suppress(psycopg2.Error):
            if self._connection is not None:
                self._connection.close()
        self._connection = None

    def execute(self, words: str, *values: Any) -> list[tuple[Any, ...]]:
        with self._connection.cursor() as cursor:
            cursor.execute(words.replace("?", "%s"), values or None)
            return [*cursor.fetchall()] if cursor.description else []

    def change(self, words: str, *values: Any) -> int:
        with self._connection.cursor() as cursor:
            cursor.execute(words.replace("?", "%s"), values)
            return int(cursor.rowcount)

    def insert(self, table: str, rows: list[tuple[Any, ...]]) -> None:
        try:
            with self._connection.cursor() as cursor:
                extras.execute_values(cursor, f"INSERT INTO {table} VALUES %s", rows, None, 1000)
        except errors.UniqueViolation:
            raise ValueError(f"{self.place} has one of these rows, or its key") from None

    def version(self) -> object:
        return int(time.monotonic() / _SOON)

    def backup(self, path: str) -> None:
        raise ValueError(f"pg_dump copies a journal on a server: pg_dump -f {path} {self.place}")

    def drop(self) -> None:
        def work() -> None:
            for it in TABLES:
                if it.startswith("CREATE TABLE"):
                    self.execute(f"DROP TABLE {it.split()[2]}")
        self.whole(work)

    def close(self) -> None:
        with self._alone:
            self._drop_connection()


opened = Server
