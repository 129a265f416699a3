"""Tests journals of a batch that are damaged, can't be written, or are on a disk without locks; and
leases of runs."""

import contextlib
import errno
import fcntl
import os
import re
import sqlite3
import subprocess
import sys
import time

import pytest
from galliumtoad.batch import journal
from galliumtoad.batch.in_file import Steps
from galliumtoad.batch.journal import Journal
from room import CRASHES, Room, ended, listed, refused


@pytest.mark.parametrize("number", [None, errno.ENOLCK, errno.EOPNOTSUPP])
def test_a_disk_without_locks_is_refused(tmp_path, monkeypatch, number):
    """It grants each lock to each process, or none. No card is written."""
    room = Room(tmp_path, 1)
    room.create()
    before = room.dump()

    def lock(*_):
        if number:
            raise OSError(number, os.strerror(number))

    monkeypatch.setattr(fcntl, "lockf", lock)
    for words in ((), ("--done=1",), ("--new", "--journal=other", "--rows=o.csv", *room.readers)):
        (tmp_path / "o.csv").write_bytes((tmp_path / "rows.csv").read_bytes())
        name = "other" if "--new" in words else "journal"
        wanted = f"the disk of {name} has no locks: two runs could write one row"
        assert room.run(*words) == refused(wanted)
    assert room.dump() == before and not room.held()
    assert (tmp_path / "other").read_text() == ""


def test_a_process_that_can_not_be_had_is_named(tmp_path, monkeypatch):
    """It is the one that tries the locks."""
    room = Room(tmp_path, 1)

    def fork():
        raise BlockingIOError(errno.EAGAIN, os.strerror(errno.EAGAIN))

    monkeypatch.setattr(os, "fork", fork)
    assert room.run() == refused("[Errno 11] Resource temporarily unavailable")
    assert not room.held()


def test_locks_that_refuse_by_another_number_are_locks(tmp_path, monkeypatch):
    """As those of some shares."""
    room, own, this = Room(tmp_path, 1), fcntl.lockf, os.getpid()

    def lock(*words):
        if os.getpid() != this:
            raise PermissionError(errno.EACCES, os.strerror(errno.EACCES))
        return own(*words)

    monkeypatch.setattr(fcntl, "lockf", lock)
    assert room.run()[0] == 0


def read_only(room, *words):
    """Runs the program without root's right to write everything. Returns its output, errors and
    status."""
    without = ["setpriv", "--bounding-set=-dac_override,-dac_read_search"]
    run = room.start_program([*(without if os.getuid() == 0 else ()), *room.words(*words)])
    return (*ended(run), run.returncode)


def test_a_status_needs_no_right_to_write(tmp_path):
    (tmp_path / "room").mkdir()
    room = Room(tmp_path / "room", 2, card=7)
    assert room.run("--stop-after=1", "--id=9F7F")[0] == 1
    (room.path / "journal").chmod(0o444)
    room.path.chmod(0o555)
    try:
        out, error, code = read_only(room, "--status", f"--report={tmp_path}/day.csv")
        assert (code, error, listed(out)) == (1, "", {1: "unsure"})
        _, line = (tmp_path / "day.csv").read_text().splitlines()
        assert line.startswith(f"1,,{room.id_of(7)},")
        assert read_only(room, "--check") == ("2 rows, and no mistake\n", "", 0)
        _, error, code = read_only(room, "--again=1")
        assert (code, error) == refused("[Errno 13] Permission denied: 'journal'")[::2]
    finally:
        room.path.chmod(0o755)


def test_a_status_beside_a_run_and_another_status(tmp_path):
    """The row in progress is not to be decided, and a status hides no row from another one."""
    room, day = Room(tmp_path, 3), "2026-01-01T00:00:00+00:00"
    room.is_apart = True
    room.create()
    room.add(f"begin 2 {day} 00 Slot0")
    mine = room.opened(3)
    assert mine.reserve("Slot0", 1) == 1 and mine.begin(1, "00", "Slot0")
    asks = """from galliumtoad.batch.journal import Journal
journal = Journal('journal', True)
print([it.number for it in journal.undecided()], flush=True)
input()
"""
    programs = []
    for _ in range(2):
        programs.append(room.start_program([sys.executable, "-c", asks], subprocess.PIPE))
        assert programs[-1].stdout.readline() == "[2]\n"
    assert mine.note(1, "done", "") and mine.state(1) == "done"
    for it in programs:
        it.communicate("\n", timeout=60)


def test_a_status_beside_a_decision_writes_it(tmp_path):
    room = Room(tmp_path, 1)
    assert room.run()[0] == 0
    for word in ("--status", "--check", "--look=1"):
        assert room.run(word, "--again=1")[:2] == (1, "0 of 1 row done, 0 to decide\n")
        assert room.run()[0] == 0


def test_a_status_of_a_pipe_ends(tmp_path):
    room = Room(tmp_path, 1)
    os.mkfifo(tmp_path / "journal")
    assert room.run("--status") == refused("journal is not a journal")


def test_what_only_asks_leaves_no_file(tmp_path):
    room = Room(tmp_path, 1)
    assert room.run()[0] == 0
    before = {it: it.is_file() and it.read_bytes() for it in tmp_path.rglob("*")}
    for words in ("--status", "--check", "--row=1"):
        assert room.run(words)[0] == 0
    assert {it: it.is_file() and it.read_bytes() for it in tmp_path.rglob("*")} == before


def whole(room):
    """A journal with cards, and what it says."""
    room.create(0x9F7F)
    days = [f"2026-01-01T00:00:0{at}+00:00" for at in range(6)]
    room.opened(3).close()
    room.add(f"begin 1 {days[0]} 0123456789abcdef Slot0", f"card 1 {days[1]} 43000001",
             f"done 1 {days[2]}", f"begin 2 {days[3]} 0123456789abcdef Slot0",
             f"card 2 {days[4]} 43000002", f"failed 2 {days[5]} worn")
    return said(room.path)


def said(path):
    """All that a journal says, and that its sums are right."""
    found = Journal(str(path / "journal"), True)
    try:
        rows = [it[:-1] for it in found.all()]
        steps = [found.history(row) for row in (1, 2, 3)]
        return found.heading, rows, steps, found.cards(), found.counts()
    finally:
        found.close()


def test_each_bit_that_flips_in_a_journal_is_found_or_changes_nothing(tmp_path):
    """A database has room that it does not use."""
    room = Room(tmp_path, 3)
    before, found, unused = whole(room), 0, 0
    data = (tmp_path / "journal").read_bytes()
    room.is_apart = True
    # each byte with a text, and some of all others
    texts = {at for it in re.finditer(rb"[ -~]{4,}", data) for at in range(*it.span())}
    others = range(0, len(data), 61)
    for number, at in enumerate(sorted({*texts, *others})):
        bit = 1 << number % 8
        changed = data[:at] + bytes([data[at] ^ bit]) + data[at + 1 :]
        (tmp_path / "journal").write_bytes(changed)
        try:
            unused += said(tmp_path) == before or pytest.fail(f"byte {at}, bit {bit}")
        except (ValueError, OSError) as error:
            assert "43000" not in str(error) and "\n" not in str(error)
            found += 1
        for name in ("journal-wal", "journal-shm"):
            (tmp_path / name).unlink(missing_ok=True)
    assert found > 500 and unused


def test_steps_that_a_damaged_log_has_lost_are_missed(tmp_path):
    """SQLite takes the log of a crash up to its first damaged byte, and says nothing."""
    room = Room(tmp_path, 3)
    room.create(0x9F7F)
    assert ended(room.start_program([sys.executable, "-c", CRASHES])) == ("", "")
    names = ("journal", "journal-wal", "journal-steps")
    whole, lost = {it: (tmp_path / it).read_bytes() for it in names}, set()
    log, before = whole["journal-wal"], said(tmp_path)
    for number, at in enumerate(range(0, len(log), 331)):
        (folder := tmp_path / str(at)).mkdir()
        whole["journal-wal"] = log[:at] + bytes([log[at] ^ 1 << number % 8]) + log[at + 1 :]
        for name in names:
            (folder / name).write_bytes(whole[name])
        try:
            assert said(folder)[1:] == before[1:], at
        except ValueError as error:
            lost.add(int(re.search(r"/journal lacks its last (\d) steps?: look", str(error))[1]))
    assert lost == {*range(1, 10)}
    whole["journal-wal"] = bytes(len(log))
    for name in names:
        (tmp_path / name).write_bytes(whole[name])
    wanted = refused("journal lacks its last 9 steps: look what the last cards hold, and remove"
                     " journal-steps")
    for words in ((), ("--status",), ("--done=1",)):
        assert room.run(*words) == wanted
    assert not room.held()
    (tmp_path / "journal-steps").unlink()
    assert room.run("--status")[0] == 1


def test_a_new_journal_has_no_step(tmp_path):
    """Although the number of an old one's steps was left."""
    room = Room(tmp_path, 1)
    assert room.run()[0] == 0
    (tmp_path / "journal").unlink()
    assert (tmp_path / "journal-steps").exists() and room.run()[0] == 0


def test_the_number_of_steps_only_grows(tmp_path, monkeypatch):
    """Whichever process notes it later."""
    synced = []
    monkeypatch.setattr(os, "fdatasync", lambda file: synced.append(os.pread(file, 99, 0)))
    one, two = (Steps(str(tmp_path / "day.db"), False) for _ in range(2))
    looks = Steps(str(tmp_path / "day.db"), True)
    one.note(0)
    looks.compare(lambda: 0)
    assert not [*tmp_path.iterdir()]
    one.note(5)
    two.note(3)
    assert synced == [b"00000000000000000005\n"]
    looks = Steps(str(tmp_path / "day.db"), True)
    for it in (one, two, looks):
        it.compare(lambda: 5)
        with pytest.raises(ValueError, match="day.db lacks its last 1 step: "):
            it.compare(lambda: 4)
    two.note(12)
    with pytest.raises(ValueError, match="day.db lacks its last 7 steps: "):
        one.compare(lambda: 5)
    # another process has one more step meanwhile
    one.compare(lambda: two.note(13) or 12)
    (tmp_path / "day.db-steps").write_bytes(bytes(21))  # a crash at its creation
    looks.compare(lambda: 0)
    (tmp_path / "day.db-steps").write_text("000000000000000000x5\n")
    with pytest.raises(ValueError, match="day.db-steps is damaged: no number"):
        looks.compare(lambda: 5)


@pytest.mark.parametrize(("words", "what"), [
    ("UPDATE rows SET state = 'free' WHERE number = 1", "the sum of row 1 is wrong"),
    ("UPDATE rows SET card = '43000009' WHERE number = 2", "the sum of row 2 is wrong"),
    ("UPDATE rows SET reader = 'Slot1' WHERE number = 1", "the sum of row 1 is wrong"),
    ("UPDATE rows SET ended = ended + 1 WHERE number = 1", "the sum of row 1 is wrong"),
    ("UPDATE cards SET number = 2 WHERE number = 1", "the sum of a card is wrong"),
    ("UPDATE log SET word = 'again' WHERE number = 1", "a sum in the log of row 1 is wrong"),
    ("DELETE FROM log WHERE number = 1 AND step = 2", "a sum in the log of row 1 is wrong"),
])  # fmt: skip
def test_a_change_from_elsewhere_is_found(tmp_path, words, what):
    room = Room(tmp_path, 3)
    whole(room)
    room.asked(words)
    with pytest.raises(ValueError, match=f"journal is damaged: {what}"):
        said(tmp_path)


def test_a_card_that_is_lost_gets_no_second_row(tmp_path):
    """From the list of cards: the row has it still."""
    room = Room(tmp_path, 3)
    whole(room)
    room.asked("DELETE FROM cards")
    found = room.opened(3)
    found.begin(found.reserve("Slot0"), "00", "Slot0")
    with pytest.raises(ValueError, match="journal is damaged: UNIQUE constraint failed: rows.card"):
        found.identify(3, "43000001")
    cards = room.asked("SELECT card FROM rows ORDER BY number")
    assert cards == [("43000001",), ("43000002",), (None,)]


def test_the_cost_of_a_row_does_not_grow_with_the_table(tmp_path):
    """Each of its few statements finds its rows by an index."""
    room, said = Room(tmp_path, 1), []
    room.create(0x9F7F)
    one = room.opened(50)

    def noted(call):
        def noting(words, *values):
            said.append((words, values))
            return call(words, *values)

        return noting

    execute = one.base.execute
    one.base.execute, one.base.change = noted(execute), noted(one.base.change)
    row = one.reserve("A")
    assert one.begin(row, "00", "A") and one.identify(row, "43") == row
    assert one.note(row, "done", "") and one.has_free()
    assert len(said) < 16
    plans = [str(it[-1]) for words, values in said
             for it in execute(f"EXPLAIN QUERY PLAN {words}", *values)]
    assert len(plans) > 8
    assert [it for it in plans if re.match("SCAN (TABLE )?(rows|log|cards)|USE TEMP", it)] == []


def test_a_damaged_journal_ends_a_run_and_a_status_with_2(tmp_path):
    room = Room(tmp_path, 2)
    assert room.run("--id=9F7F", "--part=1/2")[0] == 0
    room.asked("UPDATE rows SET card = '43'")
    for words in ((), ("--status",), ("--check",), ("--look=1", *room.readers), ("--done=1",)):
        wanted = refused("journal is damaged: the sum of row 1 is wrong")
        assert room.run(*words) == wanted


def test_a_journal_s_index_is_looked_through_at_the_start(tmp_path):
    """A card that is missing there alone would get a second row."""
    room = Room(tmp_path, 3)
    whole(room)
    made = sqlite3.connect(tmp_path / "journal")
    made.executescript("PRAGMA writable_schema = ON; UPDATE sqlite_master SET rootpage ="
                       " (SELECT rootpage FROM sqlite_master WHERE name = 'rows_by_state')"
                       " WHERE name = 'sqlite_autoindex_cards_1'")
    made.close()
    for only_looks in (False, True):
        with pytest.raises(ValueError, match="journal is damaged: "):
            Journal(str(tmp_path / "journal"), only_looks)


def test_a_fault_of_the_journal_is_no_success(tmp_path, monkeypatch):
    """The disk fails at the very last step, after the card has all."""
    room, own = Room(tmp_path, 1), Journal.note

    def note(self, row, word, reason):
        monkeypatch.setattr(self.base, "execute", fails)
        return own(self, row, word, reason)

    def fails(*_):
        raise sqlite3.OperationalError("disk I/O error")

    monkeypatch.setattr(Journal, "note", note)
    status, out, error = room.run()
    assert (status, error) == (2, f"{room.names[0]}: journal: disk I/O error\n")
    monkeypatch.undo()
    assert room.cards_of(1) == (1, 1) and room.to_decide() == {1: "unsure"}


# Leases. Runs whose process is on another machine end by the clock alone.


@pytest.fixture
def kind():
    """What makes a room."""
    return Room


@pytest.fixture
def apart(monkeypatch):
    """Another machine for each run."""
    names = iter(range(100))
    monkeypatch.setattr(journal, "machine", lambda: f"machine {next(names)}")


def lapse(room, *runs):
    """Ends the leases of runs."""
    for it in runs:
        room.asked("UPDATE runs SET until = until - 61 WHERE run = ?", it.run)


def test_a_lease_ends_by_the_clock_of_the_database(tmp_path, kind, apart):
    room = kind(tmp_path, 4)
    room.create()
    one, two = room.opened(4), room.opened(4)
    assert [one.reserve("A"), one.reserve("B"), two.reserve("A")] == [1, 2, 3]
    assert one.begin(1, "00", "A")
    lapse(room, one)
    assert two.state(1) == "unsure" and two.state(2) == "free"
    with pytest.raises(ValueError, match="row 2 has not begun"):
        two.decide(2, "done")
    # what had not begun is free, and another run gets it
    assert two.reserve("B") == 2
    assert not one.begin(2, "00", "B") and room.events() == ["begin 1", "unsure 1"]
    assert one.reserve("B") == 4
    assert two.about(1) == "row 1, which is unsure"


def test_a_reader_keeps_the_row_that_it_has_taken(tmp_path, kind):
    """Until that begins. A row that is wanted is taken alone, and only if it is free."""
    room = kind(tmp_path, 5)
    room.create()
    one = room.opened(5)
    found = [one.reserve("A"), one.reserve("A"), one.reserve("A", 3), one.reserve("B", 1)]
    assert found == [1, 1, 3, None]
    one.release(3)
    assert one.begin(1, "00", "A") and one.reserve("A") == 2


def test_a_lease_is_renewed_and_lasts_a_minute(tmp_path, kind, apart):
    room = kind(tmp_path, 2)
    room.create()
    one, two = room.opened(2), room.opened(2)
    assert one.begin(one.reserve("A"), "00", "A")
    ends = "SELECT until FROM runs WHERE run = ?"
    lapse(room, one)
    for renews in (one.renew, lambda: one.begin(one.reserve("B"), "00", "B")):
        lapse(room, one)
        renews()
        [(until,)] = room.asked(ends, one.run)
        assert 58 < until - time.time() < 61
        assert two.state(1) == "begun" and two.reserve("A") in (2, None)
        two.release(2)


def test_a_run_that_comes_back_may_still_tell_how_its_row_ended(tmp_path, kind, apart):
    room = kind(tmp_path, 3)
    room.create()
    one, two = room.opened(3), room.opened(3)
    for reader in ("A", "B", "C"):
        assert one.begin(one.reserve(reader), "00", reader)
    lapse(room, one)
    assert two.reserve("A") is None and two.state(1) == "unsure"  # two has noted that
    two.decide(2, "again")
    two.decide(3, "done")
    assert one.identify(1, "41") == 1 and one.note(1, "done", "")
    assert one.identify(2, "42") is None and not one.note(2, "done", "")
    assert one.identify(3, "43") is None and not one.note(3, "failed", "worn")
    assert [two.state(row) for row in (1, 2, 3)] == ["done", "free", "done"]
    assert two.reserve("A") == 2 and not one.note(2, "done", "")
    assert room.asked("SELECT card FROM cards") == [("41",)]


def test_a_decision_stays_if_the_run_comes_back_later(tmp_path, kind, apart):
    """Also after the row went to another card."""
    room = kind(tmp_path, 1)
    room.create()
    one, two = room.opened(1), room.opened(1)
    assert one.begin(one.reserve("A"), "00", "A") and one.identify(1, "41") == 1
    lapse(room, one)
    two.decide(1, "again")
    assert two.begin(two.reserve("A"), "00", "A") and two.identify(1, "42") == 1
    assert not one.note(1, "failed", "") and two.note(1, "done", "")
    assert not one.note(1, "done", "")
    # the first card is not used for any other row
    assert room.asked("SELECT card, number FROM cards") == [("41", 1), ("42", 1)]
    assert room.asked("SELECT card, state FROM rows") == [("42", "done")]


def test_a_row_ends_once(tmp_path, kind):
    """If the database is lost after it has noted that, the run notes it again."""
    room = kind(tmp_path, 1)
    room.create()
    one = room.opened(1)
    assert one.begin(one.reserve("A"), "00", "A") and one.begin(1, "00", "A")
    assert one.note(1, "done", "") and one.note(1, "done", "") and not one.note(1, "failed", "")
    assert room.events() == ["begin 1", "begin 1", "done 1"]


def test_a_card_of_another_station_is_refused_with_its_name(tmp_path, kind, apart):
    room = kind(tmp_path, 2)
    room.create()
    one, two = (Journal(room.place, False, journal.Run(it)) for it in ("desk 1", "desk 2"))
    one.sync([None, None])
    for it in (one, two):
        it.start("")
        assert it.begin(it.reserve("A"), "00", "A")
    assert one.identify(1, "41") == 1 and two.identify(2, "41") == 1
    assert two.about(1) == "row 1, which is in progress at desk 1"
    assert one.about(1) == "row 1, which is in progress"
    assert room.asked("SELECT card FROM rows ORDER BY number") == [("41",), (None,)]


def test_the_end_of_a_process_is_the_end_of_its_lease(tmp_path, kind):
    """On the same machine. Elsewhere nobody knows of it."""
    room = kind(tmp_path, 2)
    room.create()
    takes = """import sys
from galliumtoad.batch import journal
place, *where = sys.argv[1:]
if where:
    journal.machine = lambda: where[0]
it = journal.Journal(place)
it.start('')
it.begin(it.reserve('A'), '00', 'A')
print(flush=True)
input()
"""
    mine = room.opened(2)
    for row, where, state in ((1, [], "unsure"), (2, ["elsewhere"], "begun")):
        words = [sys.executable, "-c", takes, room.place, *where]
        other = room.start_program(words, subprocess.PIPE)
        assert other.stdout.readline() == "\n" and mine.state(row) == "begun"
        other.kill()
        ended(other)
        assert mine.state(row) == state
