"""A journal in a file of SQLite."""

import contextlib
import fcntl
import os
import sqlite3
import threading
from typing import Any, Callable, Iterator, Optional
from urllib.parse import quote

from .script import counted
from .tables import EXISTS, TABLES, T

_MAGIC = b"SQLite format 3\0"
_APPLICATION = 0x47614A31  # names the program in a file of SQLite
_WAITS = 30.0  # seconds, for another process that writes
BESIDE = ("-wal", "-shm", "-steps")  # what a file of a journal has beside it
_SMALL = 16 << 20  # bytes of a file that is looked through whole at the start of a run


@contextlib.contextmanager
def _faults(path: str) -> Iterator[None]:
    """Makes the errors of SQLite those of a file: `ValueError` if it is damaged, or `OSError`."""
    try:
        yield
    except (sqlite3.OperationalError, sqlite3.ProgrammingError) as error:
        if "decode" in str(error):  # the text follows
            raise ValueError(f"{path} is damaged: a text is not in UTF-8") from None
        raise OSError(f"{path}: {error}") from None
    except sqlite3.Error as error:
        raise ValueError(f"{path} is damaged: {error}") from None


def is_journal(path: str) -> bool:
    """Whether a file is a journal. This process must not have it open: the end of this look drops
    the process's locks on the file."""
    with contextlib.suppress(OSError):
        if os.path.isfile(path):  # the first byte of a pipe may never come
            with open(path, "rb") as file:
                head = file.read(72)
                return head[:16] == _MAGIC and head[68:] == _APPLICATION.to_bytes(4, "big")
    return False


def _if_old(path: str) -> str:
    with contextlib.suppress(OSError):
        if os.path.isfile(path):
            with open(path, "rb") as file:
                if file.read(20) == b"# galliumtoad.batch ":
                    return " of this version: galliumtoad.batch.bring_over makes one of it"
    return ""


def heading_in(path: str) -> Optional[tuple[Any, ...]]:
    """Reads the heading of a journal, or returns None. It takes no lock, and leaves no file. The
    heading is in the file itself before the first row is in the log beside it."""
    if is_journal(path):
        with contextlib.suppress(sqlite3.Error):
            found = sqlite3.connect(f"file:{quote(os.path.abspath(path))}?immutable=1", uri=True)
            with contextlib.closing(found):
                rows: list[tuple[Any, ...]] = found.execute("SELECT * FROM batch").fetchall()
                return [*rows, None][0]
    return None


def refuse_without_locks(path: str) -> None:
    """Takes a lock on a file. Raises `ValueError` if another process is not refused it."""
    with open(os.open(path, os.O_RDWR), "rb") as file:
        with contextlib.suppress(OSError):  # then the other process can't have a lock either
            fcntl.lockf(file, fcntl.LOCK_EX, 1, 0)
        if not (child := os.fork()):
            try:
                fcntl.lockf(os.open(path, os.O_RDWR), fcntl.LOCK_EX | fcntl.LOCK_NB, 1, 0)
            except (BlockingIOError, PermissionError):
                os._exit(0)
            finally:
                os._exit(1)
        if os.waitpid(child, 0)[1]:
            raise ValueError(f"the disk of {path} has no locks: two runs could write one row")


def refuse_existing(path: str) -> None:
    """Raises `ValueError` for a file, unless a crash has cut its creation: it has no table."""
    is_file, is_cut = os.path.isfile(path), os.path.exists(f"{path}-journal")
    if os.path.exists(path) and not (is_file and (is_cut or not os.stat(path).st_size)):
        raise ValueError(f"{path} {EXISTS}")


def create(path: str, heading: tuple[Any, ...]) -> None:
    """Creates a journal, for its owner alone."""
    refuse_existing(path)
    os.close(os.open(path, os.O_RDWR | os.O_CREAT, 0o600))
    refuse_without_locks(path)
    with _faults(path), contextlib.closing(sqlite3.connect(path, _WAITS, 0, None)) as made:
        made.execute("BEGIN EXCLUSIVE")
        if made.execute("SELECT 1 FROM sqlite_master").fetchall():
            raise ValueError(f"{path} {EXISTS}")
        os.close(os.open(f"{path}-steps", os.O_RDWR | os.O_CREAT | os.O_TRUNC, 0o600))
        for it in TABLES:
            made.execute(it)
        made.execute("INSERT INTO batch VALUES (?, ?, ?)", heading)
        made.execute(f"PRAGMA application_id = {_APPLICATION}")
        made.execute("COMMIT")
        made.execute("PRAGMA journal_mode = WAL")
    folder = os.open(os.path.dirname(os.path.abspath(path)), os.O_RDONLY)
    os.fsync(folder)
    os.close(folder)


class Steps:
    """The number of a journal's steps, in a file beside it. If the log of SQLite is damaged by a
    crash, its last steps are lost unseen: then the journal has fewer. To look needs no file."""

    def __init__(self, path: str, only_looks: bool) -> None:
        self.path, self._file, self._known = path, -1, 0
        how = os.O_RDONLY if only_looks else os.O_RDWR
        with contextlib.suppress(FileNotFoundError, *[PermissionError] * only_looks):
            self._file = os.open(f"{path}-steps", how)

    def _noted(self) -> int:
        text = os.pread(self._file, 21, 0) if self._file >= 0 else b""
        try:
            return int(text.strip(b"\0") or 0)
        except ValueError:
            raise ValueError(f"{self.path}-steps is damaged: no number") from None

    def compare(self, count: Callable[[], int]) -> None:
        """Raises `ValueError` if fewer steps are there than were noted before."""
        if (lost := self._noted() - count()) > 0:
            raise ValueError(f"{self.path} lacks its last {counted(lost, 'step')}: look what the "
                             f"last cards hold, and remove {self.path}-steps")

    def note(self, count: int) -> None:
        """Notes a number of steps, on disk, unless another process has noted more."""
        if count > self._known:
            self._known = count
            if self._file < 0:
                self._file = os.open(f"{self.path}-steps", os.O_RDWR | os.O_CREAT, 0o600)
            fcntl.lockf(self._file, fcntl.LOCK_EX)
            if count > self._noted():
                os.pwrite(self._file, b"%020d\n" % count, 0)
                os.fdatasync(self._file)
            fcntl.lockf(self._file, fcntl.LOCK_UN)

    def close(self) -> None:
        file, self._file = self._file, -1
        if file >= 0:
            os.close(file)


class File:
    """A journal in a file, for all threads of a process. Nothing else in the process may open the
    file: its end would drop the locks. `only_looks` opens one that can't be written."""

    for_row = for_free = notice = ""
    now = "(julianday('now') - 2440587.5) * 86400.0"

    def __init__(self, path: str, only_looks: bool) -> None:
        self.place, self.folder, self._alone = path, f"{path}.cards", threading.RLock()
        self.only_looks = only_looks
        if not os.path.exists(path):
            raise ValueError(f"there is no journal {path}: --new creates it")
        if not is_journal(path):
            raise ValueError(f"{path} is not a journal{_if_old(path)}")
        if not only_looks:
            refuse_without_locks(path)
        with _faults(path):
            self._connection, self._were = self._opened(), self._numbers()
            self._steps = Steps(path, only_looks)
        try:
            self._steps.compare(self._count)
            if only_looks or os.path.getsize(path) < _SMALL:
                self.look_through()
        except BaseException:
            self.close()
            raise

    def _opened(self) -> sqlite3.Connection:
        name = f"file:{quote(os.path.abspath(self.place))}"
        how: Any = {"timeout": _WAITS, "isolation_level": None, "uri": True}
        made = sqlite3.connect(f"{name}?mode=rw", check_same_thread=False, **how)
        try:
            made.execute("SELECT 1 FROM batch").fetchall()
        except sqlite3.OperationalError:
            # A folder that can't be written takes no file of locks. Without a log none is needed.
            made.close()
            if not self.only_looks or os.path.exists(f"{self.place}-wal"):
                raise
            made = sqlite3.connect(f"{name}?immutable=1", check_same_thread=False, **how)
        made.execute("PRAGMA synchronous = FULL")
        made.execute(f"PRAGMA query_only = {int(self.only_looks)}")
        return made

    def look_through(self) -> None:
        """Compares each entry of the file's tables and of their indexes. Raises `ValueError`."""
        with _faults(self.place):
            [(found,)] = self._connection.execute("PRAGMA integrity_check(1)").fetchall()
        if found != "ok":
            raise ValueError(f"{self.place} is damaged: {' '.join(found.split())}")

    def whole(self, work: Callable[[], T], changes: bool = True, again: bool = True) -> T:
        with self._alone, _faults(self.place):
            if not self.only_looks and self._numbers() != self._were:
                raise ValueError(f"{self.place} was replaced: look what the last cards hold")
            self._connection.execute("BEGIN IMMEDIATE" if changes else "BEGIN")
            try:
                found = work()
                self._connection.execute("COMMIT")
                if changes:
                    self._steps.note(self._count())
                return found
            except BaseException:
                with contextlib.suppress(sqlite3.Error):  # a full disk has ended it
                    self._connection.execute("ROLLBACK")
                raise

    def _count(self) -> int:
        with _faults(self.place):
            [(count,)] = self._connection.execute("SELECT coalesce(max(rowid), 0) FROM log")
            return int(count)

    def execute(self, words: str, *values: Any) -> list[tuple[Any, ...]]:
        return self._connection.execute(words, values).fetchall()

    def change(self, words: str, *values: Any) -> int:
        return self._connection.execute(words, values).rowcount

    def insert(self, table: str, rows: list[tuple[Any, ...]]) -> None:
        signs = ", ".join("?" * len(rows[0]))
        try:
            self._connection.executemany(f"INSERT INTO {table} VALUES ({signs})", rows)
        except sqlite3.IntegrityError:
            raise ValueError(f"{self.place} has one of these rows, or its key") from None

    def version(self) -> object:
        with self._alone, _faults(self.place):
            return self.execute("PRAGMA data_version")

    def backup(self, path: str) -> None:
        os.close(os.open(path, os.O_RDWR | os.O_CREAT | os.O_EXCL, 0o600))
        with _faults(path), contextlib.closing(sqlite3.connect(path)) as made:
            self._connection.backup(made)

    def drop(self) -> None:
        self.close()
        for it in ("", *BESIDE):
            with contextlib.suppress(FileNotFoundError):
                os.unlink(self.place + it)

    def close(self) -> None:
        with self._alone:
            self._connection.close()
            self._steps.close()

    def _numbers(self) -> list[Optional[int]]:  # of the file and of the log beside it
        names = (self.place, f"{self.place}-wal")
        return [os.stat(it).st_ino if os.path.exists(it) else None for it in names]


opened = File
