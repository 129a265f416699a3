"""Tests batches of cards, over a stand-in for pyscard that changes the cards. Runs are killed at
random, have a full disk or a cut journal, run twice at once, or meet cards of another profile."""

import json
import os
import random
import signal
import subprocess
import sys
import threading
import time

import pytest
from galliumtoad import Card, Select, Terminal
from galliumtoad.batch.journal import Journal
from galliumtoad.batch.script import Recorder, Script, carry_out, check_of
from room import (AID, CRASHES, HERE, SCRIPT, STANDIN, Room, ended, interruptible, lines_up_to,
                  listed, refused, steps_of, told)

sys.path.append(str(HERE.parents[2] / "checks/program"))
import operations  # noqa: E402

CARDS = int(os.environ.get("CARDS", 250))
KILLS = int(os.environ.get("KILLS", 10))

# Has the journal for itself for a while, and then takes the first row.
HOLDS = """import time
from galliumtoad.batch.journal import Journal
journal = Journal("journal")
journal.start("")
def work():
    print(flush=True)
    time.sleep(0.5)
    journal._change(journal._entry(1), state="taken", run=journal.run)
journal.base.whole(work)
input()
"""


def test_each_row_goes_to_one_card(tmp_path):
    room = Room(tmp_path, 60, readers=2)
    status, out, error = room.run("--id=9F7F")
    while status == 1:
        assert error == ""
        # cards were removed after the first put had begun
        assert set(listed(out).values()) <= {"unsure", "failed"} and listed(out)
        room.decide()
        status, out, error = room.run(go=False)
    assert (status, error) == (0, "")
    assert out.splitlines()[-1] == "60 of 60 rows done, 0 to decide"
    assert [room.cards_of(row)[0] for row in range(1, 61)] == [1] * 60
    text = room.dump()
    assert "PERSON" not in text + out and f"{room.names[1]}-1".encode().hex().upper() in text


@pytest.fixture
def connection(tmp_path, monkeypatch):
    """The class of connections to cards."""
    monkeypatch.setenv("STANDIN", str(tmp_path))
    monkeypatch.syspath_prepend(str(STANDIN))
    from smartcard.pcsc.PCSCCardConnection import PCSCCardConnection

    return PCSCCardConnection


def noted(monkeypatch, of, name, note):
    """Has a function call `note` with its arguments first."""
    calls = getattr(of, name)
    monkeypatch.setattr(of, name, lambda *words: (note(*words), calls(*words))[1])


def test_a_row_is_in_the_journal_before_its_cards_first_byte(tmp_path, monkeypatch, connection):
    """For all processes. What is in it is on disk: see the test of a power loss."""
    room, seen = Room(tmp_path, 1), []
    words = "SELECT state, reader FROM rows"
    noted(monkeypatch, connection, "transmit", lambda it, sent: seen.append(room.asked(words)))
    assert room.run()[0] == 0
    assert seen[0] == seen[-1] == [("begun", room.names[0])] and len(seen) > 5
    assert room.asked("SELECT state FROM rows") == [("done",)]
    assert room.opened(1).base.execute("PRAGMA synchronous") == [(2,)]


def test_an_identifier_is_on_disk_before_a_card_changes(tmp_path, monkeypatch, connection):
    room, lines = Room(tmp_path, 1), []

    def note(_, sent):
        if sent[1] == 0xDA and not lines:
            lines.extend(room.events())

    noted(monkeypatch, connection, "transmit", note)
    assert room.run("--id=9F7F")[0] == 0
    assert lines == ["begin 1", "card 1"]


def test_no_other_program_has_the_card_and_it_is_reset(tmp_path, monkeypatch, connection):
    room, asked = Room(tmp_path, 1), []
    from smartcard import scard

    noted(monkeypatch, connection, "connect", lambda it, *how: asked.append(how))
    assert room.run()[0] == 0
    assert asked == [(None, scard.SCARD_SHARE_EXCLUSIVE, scard.SCARD_RESET_CARD)]


# Operations after a select; an INS, and what the card answers to it in place of its own answer; how
# the row ends, and why. A card that refuses a put or a send may hold a part of the row.
OTHER = "put 5F20 was answered 9000, and read back another value"
NOTHING = "put 5F20 was answered 9000, and read back nothing"
OUTCOMES = [
    ("put 5F20 @{name}\nget 5F20", None, "", "done", ""),
    ("put 50 41*8192", None, "", "done", ""),  # a card takes no more
    ("send 00DA5F200141\nget 50", 0xCA, "564953419000", "failed",
     "get 50 was answered 9000, but not with this object"),
    ("get 50", 0xCA, "564953419000", "unused",
     "get 50 was answered 9000, but not with this object"),
    ("send 00DA00500141", 0xDA, "6982", "failed",
     "send was answered 6982 security status not satisfied"),
    ("put 50 41", 0xDA, "6982", "failed",
     "put 50 was answered 6982 security status not satisfied"),
    # no answer of a card
    ("put 50 41", 0xDA, "", "unsure", "no status"),
    ("put 50 41", 0xDA, "90", "unsure", "no status"),
    ("put 50 41", 0xDA, "41419000", "unsure", "data not asked for"),
    # a put that is not read back
    ("put 5F20 @{name}", 0xCA, "9000", "failed", NOTHING),
    ("put 5F20 @{name}", 0xCA, "500441414141" + "9000", "failed", NOTHING),
    ("put 5F20 @{name}", 0xCA, "5F20014A9000", "failed", OTHER),
    ("put 5F20 @{name}", 0xCA, "6A88", "failed", "put 5F20 was answered 9000, and its reading was "
     "answered 6A88 referenced data not found"),
    ("put {code} @{name}", 0xCA, "9000", "failed", NOTHING.replace("5F20", "{code}")),
]  # fmt: skip


@pytest.mark.parametrize(("script", "ins", "answer", "word", "why"), OUTCOMES)
def test_how_a_row_ends(script, ins, answer, word, why):
    card, row = Card({AID: {0x50: b"VISA"}}), {"name": "JANE", "code": "5F20"}

    def reader(tpdu):
        return bytes.fromhex(answer) if tpdu[1] == ins else card.tpdu(tpdu)

    made = Script("script", f"select {AID.hex()}\n{script}\n", [*row])
    assert carry_out(steps_of(made, row), Recorder(reader)) == (word, why)


def test_a_row_in_progress_is_not_to_be_decided(tmp_path):
    room = Room(tmp_path, 2)
    room.is_apart = True
    room.create()
    journal = room.opened(2)
    assert journal.reserve("Slot0") == 1
    assert room.run("--done=1") == refused("row 1 has not begun")
    assert journal.begin(1, journal_check(room, 1), "Slot0")
    assert room.to_decide() == {}
    journal.identify(1, "00")
    assert room.to_decide() == {} and [*journal.undecided()] == []
    for word in ("done", "again"):
        assert room.run(f"--{word}=1") == refused("row 1 is in progress")
        with pytest.raises(ValueError, match="row 1 is in progress"):
            journal.decide(1, word)
    del journal
    assert room.to_decide() == {1: "unsure"}


def journal_check(room, row):
    """The sum of a row in a journal that `create` has made."""
    script = Script("script", (room.path / "script").read_text(), ["name", "code"])
    made = steps_of(script, {"name": f"PERSON {row}", "code": f"{row:08X}"})
    return check_of(made, "00" * 16)


def test_a_row_is_taken_after_whoever_has_the_journal(tmp_path):
    room = Room(tmp_path, 2)
    room.create()
    journal = room.opened(2)
    other = room.start_program([sys.executable, "-c", HOLDS], subprocess.PIPE)
    assert other.stdout.readline() == "\n"
    assert journal.reserve("Slot0") == 2
    other.communicate("\n", timeout=60)
    assert other.returncode == 0


def test_threads_and_processes_reserve_different_rows(tmp_path):
    room = Room(tmp_path, 4)
    room.create()
    one = room.opened(4)
    assert [one.reserve("A"), one.reserve("B"), one.reserve("A")] == [1, 2, 1]
    asks = "from galliumtoad.batch.journal import Journal\njournal = Journal('journal')\n"
    asks += "journal.start('')\nprint(journal.reserve('A'), flush=True)\ninput()"
    other = room.start_program([sys.executable, "-c", asks], subprocess.PIPE)
    assert other.stdout.readline() == "3\n"
    one.release(1)
    assert [one.reserve("C"), one.reserve("D"), one.reserve("E")] == [1, 4, None]
    assert one.reserve("F", 2) is None
    other.communicate("\n", timeout=60)  # its row is free again
    assert one.reserve("F") == 3
    assert one.begin(2, "00", "B") and one.note(2, "done", "")
    assert one.reserve("G", 2) is None
    one.decide(2, "again")
    assert one.reserve("G", 2) == 2


def test_a_journal_that_is_replaced_or_removed_takes_no_row(tmp_path):
    room, file = Room(tmp_path, 2), tmp_path / "journal"
    room.create()
    journal = room.opened(2)
    assert journal.reserve("A") == 1
    (copy := tmp_path / "copy").write_bytes(b"")
    for name in ("journal", "journal-wal"):
        kept = tmp_path / "kept"
        (tmp_path / name).rename(kept)
        for is_there in (False, True):
            if is_there:
                (tmp_path / name).write_bytes(kept.read_bytes())
            for call in (lambda: journal.reserve("B"), lambda: [*journal.undecided()],
                         lambda: journal.begin(1, "00", "A"), lambda: journal.note(1, "done", "")):
                with pytest.raises(ValueError, match="journal was replaced: look what the last"):
                    call()
        kept.rename(tmp_path / name)
    assert journal.begin(1, "00", "A") and copy.exists() and file.exists()


def test_a_row_that_begins_after_a_second_interrupt(tmp_path, monkeypatch):
    """A reader that still connects begins none any more: the run's summary is out."""
    room = Room(tmp_path, 2)
    room.create()
    at = room.desk(2)
    from galliumtoad.batch import desk

    def connected(name):
        at._interrupt()
        at._interrupt()
        is_over.wait(60)
        return own(name)

    own, is_over = desk.connected, threading.Event()
    monkeypatch.setattr(desk, "connected", connected)
    monkeypatch.setenv("STANDIN", str(tmp_path))
    at.run()
    [reader] = [it for it in threading.enumerate() if isinstance(it, desk.Reader)]
    is_over.set()
    reader.join()
    assert at.faults == [] and room.events() == []


def test_an_interrupt_takes_no_lock(tmp_path, monkeypatch):
    """It may come within another one, or within a call that has the lock: then it would hang."""
    room = Room(tmp_path, 1)
    room.create()
    at = room.desk(1)
    from galliumtoad.batch import desk

    monkeypatch.setattr(at.stopped, "set", lambda: pytest.fail("it takes a lock"))
    reader = desk.Reader(at, "")
    assert reader._may_continue()
    at._interrupt()
    assert not reader._may_continue()


def test_each_context_of_pcsc_is_released(tmp_path, monkeypatch, connection):
    from smartcard import scard

    room, left = Room(tmp_path, 1), []
    noted(monkeypatch, scard, "SCardEstablishContext", left.append)
    noted(monkeypatch, scard, "SCardReleaseContext", lambda _: left.pop())
    assert room.run()[0] == 0 and left == []


def test_two_runs_at_one_reader(tmp_path):
    room = Room(tmp_path, 3, SLOW="0.1")
    first = room.start()
    room.begun()
    out, error = room.run()[1:]
    assert error == "" and f"{room.names[0]}: set aside: another run serves this reader\n" in out
    assert out.endswith(" of 3 rows done, 0 to decide\n") and ": row " not in out
    assert ended(first)[0].endswith("3 of 3 rows done, 0 to decide\n")


def test_readers_with_long_names(tmp_path):
    # slow enough for both readers to be served at once
    room = Room(tmp_path, 6, readers=0, SLOW="0.1")
    for end in (" 00 00", " 01 00"):
        room.add_reader(f"{'R' * 100}{os.getpid()}{end}")
    status, out, error = room.run("--reader= 00 00", "--reader= 01 00")
    assert (status, error) == (0, "") and out.endswith("6 of 6 rows done, 0 to decide\n")
    assert "set aside" not in out


def test_a_journal_that_was_cut(tmp_path):
    """Its log, by a crash. What is left is how the journal was at some time."""
    room = Room(tmp_path, 3)
    room.create(0x9F7F)
    assert ended(room.start_program([sys.executable, "-c", CRASHES])) == ("", "")
    (tmp_path / "journal-steps").unlink()  # what was not synced was not counted either
    whole = {it: (tmp_path / it).read_bytes() for it in ("journal", "journal-wal")}
    log, seen = whole["journal-wal"], []
    frame = 24 + 4096  # after a head of 32 bytes
    cuts = {*range(0, len(log), 997), *range(32, len(log), frame), *range(31, len(log), frame)}
    for kept in sorted({*cuts, len(log)}):
        (tmp_path / "journal").write_bytes(whole["journal"])
        (tmp_path / "journal-wal").write_bytes(log[:kept])
        (tmp_path / "journal-shm").unlink(missing_ok=True)
        journal = Journal(str(tmp_path / "journal"), True)
        rows = [(it.number, it.state) for it in journal.begun()]
        cards = [it[:2] for it in journal.cards()]
        journal.close()
        found = len(room.events()), rows, cards
        if not seen or found != seen[-1]:
            seen.append(found)
    words = [*range(10)]
    assert [it[0] for it in seen] == words
    done = [(1, "done"), (2, "done"), (3, "done")]
    cards = [("431", 1), ("432", 2), ("433", 3)]
    for count, rows, held in seen:
        ended_rows, rest = divmod(count, 3)
        unsure = [(ended_rows + 1, "unsure")] if rest else []
        assert rows == done[:ended_rows] + unsure
        assert held == cards[: ended_rows + (rest == 2)]


def test_a_run_goes_on_with_a_journal_that_was_cut(tmp_path):
    room = Room(tmp_path, 3, SLOW="0.05")
    run = room.start("--id=9F7F")
    room.begun("done")
    os.killpg(run.pid, signal.SIGKILL)
    ended(run)
    log = (tmp_path / "journal-wal").read_bytes()
    (tmp_path / "journal-wal").write_bytes(log[: len(log) - 4000])
    (tmp_path / "journal-steps").unlink()
    room.decide()
    room.finish(3)


@pytest.mark.parametrize("size", range(0, 57344, 4096))
def test_a_disk_that_is_full_at_the_creation(tmp_path, size):
    """No row is in the journal, so --new begins it again."""
    room = Room(tmp_path, 1)
    out, error = ended(run := room.start_full(size))
    if run.returncode:
        assert run.returncode in (1, 2) and error.count("\n") == 1, error
        assert not room.held()
    is_made = room.run("--check", "--new")[0] == 2
    words = [*([] if is_made else ["--new"]), "--journal=journal", *room.readers]
    assert room.run(*words)[0] == 0 and room.cards_of(1) == (1, 1)


def test_a_full_disk(tmp_path):
    # the same good cards for each run, however slow it is
    room = Room(tmp_path, 5, LIES="yes")
    room.is_apart, stopped = True, set()
    for size in range(66000, 250000, 9111):
        room.put_in(room.names[0], 0)
        for it in (*tmp_path.glob("journal*"), *tmp_path.glob("cards/*")):
            it.unlink()
        room.run("--go", "--journal=journal", "--new", "--check")
        room.create()
        out, error = ended(run := room.start_full(size))
        if run.returncode == 0:
            continue
        full = ("disk I/O error", "database or disk is full")
        names = ("galliumtoad.batch", room.names[0])
        assert error in [f"{name}: journal: {it}\n" for it in full for name in names], error
        begun = {it.split()[1] for it in room.events() if it.startswith("begin")}
        stopped.add(len(begun))
        for row in range(1, 6):
            assert str(row) in begun or room.cards_of(row) == (0, 0)
        # with room on the disk the same command continues
        del room.environment["LIES"]
        room.decide()
        assert room.run(go=False)[0] == 0 and room.cards_of(5)[0] == 1
        room.environment["LIES"] = "yes"
    assert len(stopped) > 3


def test_a_card_without_an_identifier_takes_no_row(tmp_path):
    room = Room(tmp_path, 1, card=17)
    why = "its reading was answered 6A88 referenced data not found"
    assert told(room.run("--id=9F7F")[1])[:2] == [
        f"{room.names[0]}: row 1 unused: the card has no identifier 9F7F: {why}",
        f"{room.names[0]}: row 1 done, card {room.id_of(18)}"]


def test_the_card_of_a_crashed_run_waits(tmp_path):
    room = Room(tmp_path, 2)
    room.create()
    journal = room.opened(2)
    assert journal.reserve("Slot0") == 1
    assert journal.begin(1, journal_check(room, 1), "Slot0")
    del journal
    name, out = room.names[0], room.run(go=False)[1]
    assert out.startswith("continuing: 0 of 2 rows done, 1 unsure\n")
    assert told(out)[:2] == [
        f"{name}: a card lies in it: remove and insert it, or press Enter to write it",
        f"{name}: row 2 done",
    ]
    assert told(out)[2].startswith("row 1 unsure: a card without an id, Slot0, 20")
    assert told(out)[2].endswith(": the run ended before the row did")
    assert told(out)[3:] == ["1 of 2 rows done, 1 to decide"]
    assert [*room.held()] == [f"{name}-1"]


@pytest.mark.parametrize(("more", "cards"), [({}, (0, 1, 2)), ({"SWAPS": "1"}, (1, 3))])
def test_a_card_that_stays_in_takes_one_row(tmp_path, more, cards):
    """Also if it is changed just before the connection."""
    room = Room(tmp_path, len(cards), STAYS="1", **more)
    assert room.run()[0] == 0
    assert sorted(room.held()) == [f"{room.names[0]}-{it}" for it in cards]
    assert [room.cards_of(row)[0] for row in range(1, len(cards) + 1)] == [1] * len(cards)


@pytest.mark.parametrize(("line", "sent", "reason"), operations.rows())
def test_a_line_is_read_as_by_card_trace(line, sent, reason):
    if reason:
        with pytest.raises(ValueError):
            steps_of(Script("script", f"{line}\n", []), {})
        return
    card, terminal, tpdus = Card({AID: {}}), Terminal(), []
    terminal.run(card.tpdu, Select(AID))
    [made] = steps_of(Script("script", f"# 1\n{line}\n", []), {})
    terminal.run(lambda it: (tpdus.append(bytes(it)), card.tpdu(it))[1], made.operation)
    assert made.line == 2
    assert sent in (None, b"".join(tpdus).hex().upper())


def test_a_cr_without_an_lf_is_a_character_of_a_word():
    steps = steps_of(Script("script", "get 50\r\nget 50", []), {})
    assert [it.line for it in steps] == [1, 2]
    with pytest.raises(ValueError):
        steps_of(Script("script", "get 50\r", []), {})


def test_columns_take_only_what_words_take(tmp_path):
    """A cell is no more than a script's own word, and is not filled again."""
    script = Script("script", "select {a}\nget {t}\nput {t} {v}\nput 50 @{v}\n", [*"atv"])
    row = {"a": "A000000003", "t": "5F20", "v": "41*3"}
    _, get, put, text = (it.operation for it in steps_of(script, row))
    assert [get.tag, put.value, text.value] == [0x5F20, b"AAA", b"41*3"]
    assert steps_of(script, {**row, "v": "-"})[2].operation.value == b""
    for bad in ({"a": "A000000003*1"}, {"t": "-"}, {"t": "50*1"}, {"v": "{t}"}, {"v": "4142*3"}):
        with pytest.raises(ValueError):
            steps_of(script, {**row, **bad})
    (tmp_path / "long").write_bytes(b"A" * 16321)
    for value in (f"@{tmp_path}/long", "@{v}"):
        with pytest.raises(ValueError):
            steps_of(Script("script", f"put 50 {value}", ["v"]), {"v": "A" * 16321})


def test_a_table_may_be_a_pipe(tmp_path):
    room = Room(tmp_path, 1)
    text = (tmp_path / "rows.csv").read_text()
    how = {"cwd": tmp_path, "env": room.environment, "text": True, "capture_output": True}
    program = room.words("--rows=/dev/stdin")
    assert subprocess.run(program, input=text, **how).returncode == 0
    program.remove("--new")
    assert subprocess.run(program, input=text, **how).returncode == 0
    run = subprocess.run(program, input=text.replace("1", "2"), **how)
    assert run.stderr.endswith(": row 1 has begun with other cells or another script\n")


def test_only_its_owner_reads_a_journal_and_dialogues(tmp_path):
    room = Room(tmp_path, 1, card=7)
    room.run("--stop-after=1")
    assert (tmp_path / "journal").stat().st_mode & 0o777 == 0o600
    assert (tmp_path / "journal.cards").stat().st_mode & 0o777 == 0o700
    assert (tmp_path / "journal.cards/1.trace").stat().st_mode & 0o777 == 0o600


@pytest.mark.parametrize(
    "text",
    [b"name,code\nA,00", b"\xff\xfe", b"# rows of another table", b"# rows\n", b"a" * 70000]
    + [b"SQLite format 3\0", b"SQLite format 3\0" + bytes(100)]
)  # fmt: skip
def test_another_file_is_no_journal_and_stays(tmp_path, text):
    """Nor does one hinder the journal beside it."""
    room = Room(tmp_path, 1)
    (tmp_path / "journal").write_bytes(text)
    assert room.run() == refused("journal is not a journal")
    assert room.run("--check", "--new", "--journal=other")[0] == 0
    assert room.run("--new") == refused("journal exists: without --new the batch continues")
    assert (tmp_path / "journal").read_bytes() == text


def test_another_database_is_no_journal_and_stays(tmp_path):
    room = Room(tmp_path, 1)
    room.asked("CREATE TABLE other (it)")
    before = (tmp_path / "journal").read_bytes()
    assert room.run() == refused("journal is not a journal")
    assert room.run("--new") == refused("journal exists: without --new the batch continues")
    assert (tmp_path / "journal").read_bytes() == before


@pytest.mark.parametrize(("words", "line"), [
    ("UPDATE batch SET heading = heading || ' '", "is damaged: the sum of its heading is wrong"),
    ("UPDATE batch SET sum = sum + 1", "is damaged: the sum of its heading is wrong"),
    ("DELETE FROM batch", "is damaged: the sum of its heading is wrong"),
    ("DROP TABLE batch", "no such table: batch"),
])  # fmt: skip
def test_a_wrong_heading_is_found(tmp_path, words, line):
    room = Room(tmp_path, 1)
    room.create()
    room.asked(words)
    for more in ((), ("--status",)):
        status, out, error = room.run(*more)
        assert (status, out) == (2, "") and line in error and error.count("\n") == 1
    assert room.run("--check", "--new", "--journal=other")[0] == 0


def test_another_schema_is_refused(tmp_path, monkeypatch):
    from galliumtoad.batch import journal

    room = Room(tmp_path, 1)
    monkeypatch.setattr(journal, "SCHEMA", 2)
    room.create()
    monkeypatch.undo()
    assert room.run() == refused("journal has schema 2; this program has 1")


def test_a_journal_that_can_not_be_written_is_named(tmp_path):
    room = Room(tmp_path, 1)
    (tmp_path / "journal").mkdir()
    assert room.run() == refused("journal is not a journal") and not room.held()
    assert room.run("--new") == refused("journal exists: without --new the batch continues")


def test_a_pipe_is_no_journal(tmp_path):
    room = Room(tmp_path, 1)
    os.mkfifo(tmp_path / "journal")
    assert room.run() == refused("journal is not a journal")
    assert room.run("--new") == refused("journal exists: without --new the batch continues")


def test_a_row_is_decided_in_one_step(tmp_path, monkeypatch):
    room = Room(tmp_path, 1)
    room.create()
    journal = room.opened(1)
    journal.begin(journal.reserve("A"), "00", "A")
    journal.note(1, "unsure", "")
    steps = []
    noted(monkeypatch, journal.base, "whole", lambda work, *it: steps.append(it))
    journal.decide(1, "again")
    assert steps == [(True,)]


@pytest.mark.parametrize(("first", "between"), [("", ","), ("sep=,\r\n", ","), ("sep=;\r\n", ";")])
def test_a_table_as_a_spreadsheet_writes_it(tmp_path, first, between):
    room = Room(tmp_path, 2)
    text = '"name","code",\r\n"PERSON 1","00000001",\r\n\r\nPERSON 2,00000002,more\r\n'
    (tmp_path / "rows.csv").write_bytes(f"\ufeff{first}{text.replace(',', between)}".encode())
    room.write("script", SCRIPT.replace("\n", "\r\n"))
    assert room.run()[0] == 0
    assert [room.cards_of(row) for row in (1, 2)] == [(1, 1)] * 2


def test_texts_are_stored_as_they_are(tmp_path):
    room = Room(tmp_path, 1)
    text = 'name,code\n" \u00c5SA, ""X""\r\n\u2028 ",-\n'
    (tmp_path / "rows.csv").write_bytes(text.encode())
    assert room.run()[0] == 0
    [held] = [json.loads(it.read_text()) for it in tmp_path.glob("cards/*")]
    assert bytes.fromhex(held["24352"]).decode() == ' \u00c5SA, "X"\r\n\u2028 '
    assert held["40758"] == ""


def test_a_file_that_the_script_names_is_read_once(tmp_path):
    file = tmp_path / "photo"
    file.write_bytes(b"A")
    script = Script("script", f"put 50 @{file}\n", [])
    steps = steps_of(script, {})
    file.unlink()
    assert steps_of(script, {}) == steps and steps[0].operation.value == b"A"


def test_cards_get_what_was_checked(tmp_path):
    """A file of a value is read once, so that it may change or go away during a run."""
    room = Room(tmp_path, 2, SLOW="0.1")
    room.write("script", "select A0000000031010\nput 5F20 @{name}.jpg\n")
    for row in (1, 2):
        (tmp_path / f"PERSON {row}.jpg").write_bytes(bytes([row]))
    run = room.start()
    room.begun()
    (tmp_path / "PERSON 1.jpg").unlink()
    (tmp_path / "PERSON 2.jpg").write_bytes(b"3")
    assert ended(run)[0].endswith("2 of 2 rows done, 0 to decide\n")
    assert sorted(it["24352"] for it in room.held().values()) == ["01", "02"]


@pytest.mark.parametrize("handler", [signal.default_int_handler, signal.SIG_IGN])
def test_an_interrupted_run_ends_the_card_in_progress(tmp_path, handler):
    room = Room(tmp_path, 3, SLOW="0.1")
    run = interruptible(room, handler=handler)
    room.begun()
    os.kill(run.pid, signal.SIGINT)
    out, error = ended(run)
    assert (run.returncode, error) == (1, "")
    assert told(out) == [
        "stops after the cards in progress; Ctrl-C again stops at once",
        f"{room.names[0]}: row 1 done",
        "1 of 3 rows done, 0 to decide",
    ]


def test_a_run_that_is_interrupted_twice_lists_its_row(tmp_path):
    room = Room(tmp_path, 3, SLOW="1.5")
    run = interruptible(room)
    room.begun()
    os.kill(run.pid, signal.SIGINT)
    lines_up_to(run, "stops after")
    os.kill(run.pid, signal.SIGINT)
    out, error = ended(run)
    assert (run.returncode, error) == (1, "")
    assert listed(out) == {1: "unsure"}
    assert out.endswith("0 of 3 rows done, 1 to decide\n")
    assert room.to_decide() == {1: "unsure"}


def test_without_a_pcscd_no_reader_is_chosen(tmp_path):
    room = Room(tmp_path, 1)
    (tmp_path / "gone").touch()
    assert room.run() == refused("error 9")
    assert not (tmp_path / "journal").exists()


def test_two_runs_at_once(tmp_path):
    room = Room(tmp_path, 60, readers=2)
    room.create()
    runs = [room.start(it) for it in room.readers]
    for run in runs:
        assert ended(run)[1] == ""
    room.finish(60)


def test_killed_at_random(tmp_path):
    # slow enough to leave rows for each kill
    room = Room(tmp_path, CARDS, readers=4, SLOW="0.015")
    at_random, kills, out = random.Random(7), 0, ""
    while not out.endswith(f"{CARDS:,} of {CARDS:,} rows done, 0 to decide\n"):
        # the card that lies in a reader may have a row
        run = room.start(go=False)
        if kills < KILLS:
            time.sleep(at_random.uniform(0.3, 0.9))
            os.killpg(run.pid, signal.SIGKILL)
            kills += 1
        out = ended(run, 600)[0]
        room.decide()
    held = room.held()
    assert [room.cards_of(row, held)[0] for row in range(1, CARDS + 1)] == [1] * CARDS
    assert kills == KILLS
