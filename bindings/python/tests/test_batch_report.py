"""Tests the reports of a batch: while its journal changes, over several journals, of times that no
clock can have, and on a full disk."""

import csv
import os
import re
import statistics
import sys
import threading
from array import array
from datetime import datetime, timezone

import pytest
from galliumtoad.batch import report
from galliumtoad.batch.journal import Entry, Run
from room import Room, ended, listed

BEGUN = datetime(2026, 1, 1, tzinfo=timezone.utc).timestamp()


def rows_of(file):
    """The rows of a report, without its heading."""
    with open(file, newline="") as opened:
        return list(csv.reader(opened))[1:]


@pytest.fixture
def two(tmp_path):
    """A card that is inserted on two machines: it has row 1, and then row 2."""
    room = Room(tmp_path, 2)
    for at in (1, 2):
        write(room, at, card=0, more=["--new", f"--part={at}/2", "--id=9F7F"])
    return room


def write(room, at, card, more=()):
    """Writes the row of one machine to a card."""
    room.put_in(room.names[0], card)
    assert room.run(f"--journal=j{at}", *room.readers, *more)[0] == 0


def status(room, order=(1, 2)):
    """The status of both machines: rows to decide by their state, and rows in a report,
    each with its card and outcome. They must be the same."""
    names = [f"--journal=j{at}" for at in order]
    code, out, error = room.run("--status", "--report=all.csv", *names)
    rows = {int(it[0]): (it[2], it[8], it[9]) for it in rows_of(room.path / "all.csv")}
    done = sum(it[1] == "done" for it in rows.values())
    assert error == "" and code == (done != 2)
    assert out.endswith(f"{done} of 2 rows done, {len(listed(out))} to decide\n")
    assert {row: rows[row][1] for row in listed(out)} == listed(out)
    return rows, out


@pytest.mark.parametrize("order", [(1, 2), (2, 1)])
def test_a_card_of_two_machines_has_the_later_row(two, order):
    """The earlier one is on no card, until it is written again."""
    card, why = two.id_of(0), "its card got row 2 of j2 later"
    assert [two.cards_of(row)[0] for row in (1, 2)] == [0, 1]
    rows, out = status(two, order)
    assert rows == {1: (card, "unsure", why), 2: (card, "done", "")}
    about = rf"row 1 unsure: card {card}, {two.names[0]}, [-0-9]+ [:0-9]+: {why}"
    assert re.fullmatch(about, out.splitlines()[0])
    assert out.splitlines()[1] == "  --look 1 compares that card; then --again 1"
    assert two.run("--again=1", "--journal=j1")[0] == 1
    assert status(two, order)[0] == {1: (card, "free", "decided"), 2: (card, "done", "")}
    write(two, 1, card=2)
    rows = status(two, order)[0]
    assert rows == {1: (two.id_of(2), "done", ""), 2: (card, "done", "")}
    assert [two.cards_of(row)[0] for row in (1, 2)] == [1, 1]


def test_another_card_for_the_later_row_does_not_help_the_earlier(two):
    assert two.run("--again=2", "--journal=j2")[0] == 1
    write(two, 2, card=2)
    assert [two.cards_of(row)[0] for row in (1, 2)] == [0, 2]
    why = "its card got row 2 of j2 later"
    rows = status(two)[0]
    assert rows == {1: (two.id_of(0), "unsure", why), 2: (two.id_of(2), "done", "")}


def test_the_first_machine_may_write_the_card_once_more(two):
    """Then it is the other machine's row that is lost."""
    assert two.run("--again=1", "--journal=j1")[0] == 1
    write(two, 1, card=0)
    assert [two.cards_of(row)[0] for row in (1, 2)] == [1, 0]
    rows = status(two)[0]
    assert rows[1][1] == "done"
    assert rows[2] == (two.id_of(0), "unsure", "its card got row 1 of j1 later")


def test_a_report_while_other_threads_begin_rows(tmp_path):
    room, file = Room(tmp_path, 5000), tmp_path / "day.csv"
    room.create()
    journal, faults = room.opened(5000), []
    journal.base.execute("PRAGMA synchronous = OFF")

    def begin():
        try:
            for row in range(1, 1501):
                journal.begin(journal.reserve("Slot0"), "00", "Slot0")
                journal.note(row, "done", "")
        except Exception as error:
            faults.append(error)

    thread, seen, before = threading.Thread(target=begin), [0], sys.getswitchinterval()
    sys.setswitchinterval(1e-6)
    thread.start()
    try:
        while thread.is_alive():
            report.write(str(file), [journal])
            seen.append(len(rows_of(file)))
            assert [int(it[0]) for it in rows_of(file)] == [*range(1, seen[-1] + 1)]
    finally:
        sys.setswitchinterval(before)
        thread.join()
    report.write(str(file), [journal])
    assert not faults and len(rows_of(file)) == 1500
    assert seen == sorted(seen) and len({*seen}) > 2


def test_a_report_has_what_another_process_wrote(tmp_path):
    room, file = Room(tmp_path, 2), str(tmp_path / "day.csv")
    room.create()
    journal = room.opened(2)
    before = journal.version()
    room.add("begin 2 2026-01-01T00:00:00+00:00 00 Slot0", "done 2 2026-01-01T00:00:01+00:00")
    assert journal.version() != before
    report.write(file, [journal])
    assert [it[0] for it in rows_of(file)] == ["2"]


def test_a_run_writes_its_report_after_each_step(tmp_path):
    room, file = Room(tmp_path, 2), tmp_path / "day.csv"
    room.create()
    at = room.desk(2)
    at.given.report, journal = str(file), at.journal
    for step, state in [
        (lambda: None, None),
        (lambda: journal.begin(journal.reserve("Slot0"), "00", "Slot0"), "begun"),
        (lambda: journal.note(1, "failed", "worn"), "failed"),
        (lambda: journal.decide(1, "again"), "free"),
        (lambda: journal.begin(journal.reserve("Slot0"), "00", "Slot0"), "begun"),
    ]:
        step()
        at._next = 0  # it is time
        at._turn()
        assert [[it[0], it[8]] for it in rows_of(file)] == ([["1", state]] if state else [])
    file.unlink()
    at._next = 0
    at._turn()
    assert not file.exists()  # nothing has changed


def entry(begin, seconds, state="done"):
    """A row that begins this many seconds after the first one."""
    return Entry(1, None, None, state, "", "Slot0", None, "00", BEGUN + begin,
                 BEGUN + begin + seconds)


def times_of(rows):
    """The rows and the times that a report has of these entries, the first row 1."""
    times, ends = [report._seconds(it) for it in rows], [it.ended for it in rows]
    page = report.picture(array("d", times), array("d", ends))
    return [float(it) for it in re.findall(r"([-0-9.]+) s\b", page)]


@pytest.mark.parametrize("times", [[1, 2, 9], [9, 1, 2], [2, 9, 1, 4], [3], [5, 5, 1]])
def test_a_report_has_the_median_and_the_longest_time(times):
    shown = times_of([entry(100 * at, it) for at, it in enumerate(times)])
    assert shown == [round(statistics.median(times), 1), max(times)]


def test_a_clock_that_goes_back_makes_no_negative_time():
    """How long that row took is unknown."""
    rows = [entry(0, 2), entry(10, -3600), entry(20, 4), entry(30, 0)]
    assert [report._line(it, Run())[7] for it in rows] == ["2.0", "", "4.0", ""]
    assert times_of(rows) == [3.0, 4.0] and times_of([rows[1]]) == [0.0, 0.0]


def test_a_decision_does_not_make_a_card_slow(tmp_path):
    """The first row ended before it, and how long the second took is unknown."""
    room, day = Room(tmp_path, 2), "2026-01-01T"
    room.create()
    room.add(f"begin 1 {day}10:00:00+00:00 00 Slot0", f"unsure 1 {day}10:00:02+00:00 pulled",
             f"begin 2 {day}10:00:03+00:00 00 Slot0", f"done 1 {day}15:00:00+00:00 decided",
             f"done 2 {day}15:00:00+00:00 decided")
    journal = room.opened(2)
    for name in ("day.csv", "day.html"):
        report.write(str(tmp_path / name), [journal])
    found = [it[7:10] for it in rows_of(tmp_path / "day.csv")]
    assert found == [["2.0", "done", "decided"], ["", "done", "decided"]]
    page = (tmp_path / "day.html").read_text()
    assert "<p>a card took 2.0 s (median), 2.0 s at most</p>" in page
    assert "<p>2 rows done, from 2026-01-01 10:00 +0000 to 2026-01-01 10:00 +0000</p>" in page


def test_a_report_has_the_rows_in_their_order(tmp_path):
    """Not in that in which they began."""
    room, time = Room(tmp_path, 12), "2026-01-01T00:00:00+00:00"
    room.create()
    room.add(*(f"begin {row} {time} 00 Slot0" for row in (3, 12, 1, 10, 2)))
    report.write(str(tmp_path / "day.csv"), [room.opened(12)])
    assert [it[0] for it in rows_of(tmp_path / "day.csv")] == ["1", "2", "3", "10", "12"]


def test_a_report_is_on_disk_before_it_has_its_name(tmp_path, monkeypatch):
    steps, calls = [], {"fsync": os.fsync, "replace": os.replace}
    whole = ",".join([*report.HEAD, *report.MORE]) + "\r\n"

    def noted(name):
        def call(first, *more):
            steps.append(name)
            if name == "fsync":  # all of it
                assert os.fstat(first).st_size == len(whole)
            return calls[name](first, *more)

        return call

    for name in calls:
        monkeypatch.setattr(os, name, noted(name))
    report.write(str(tmp_path / "day.csv"), [])
    assert steps == ["fsync", "replace"]


def test_a_full_disk_keeps_no_part_of_a_report(tmp_path):
    """The files of the process may be as large as the journal's are."""
    room = Room(tmp_path, 1)
    assert room.run()[0] == 0
    text, time = "x" * 40000, "2026-01-01T00:00:00+00:00"
    [(digest,)] = room.asked("SELECT digest FROM rows")
    room.add(f"begin 1 {time} {digest} Slot0", *[f"failed 1 {time} {text}"] * 9,
             f"done 1 {time} {text}")
    (tmp_path / "day.html").write_text("old")
    before = sorted(tmp_path.iterdir())
    out, error = ended(run := room.start_full(32768, "--status", "--report=day.html"))
    assert (run.returncode, error) == (2, "galliumtoad.batch: [Errno 27] File too large\n")
    assert sorted(tmp_path.iterdir()) == before
    assert (tmp_path / "day.html").read_text() == "old"
