"""Tests that a batch gives each row to one card, and each card one row: cards that are inserted
again, cards that lie in a reader, journals with a wrong name, and corrected cells."""

import errno
import os
import re
import shutil

import pytest
from galliumtoad import Card, Select, Terminal
from galliumtoad.batch.journal import Heading
from galliumtoad.batch.script import Recorder, Refused, Script, carry_out, identity
from room import AID, SCRIPT, Room, listed, refused, steps_of

NOT_TOLD = "without --id it can't tell cards apart: a card inserted twice gets two rows\n"


def test_a_card_that_is_inserted_three_times_has_one_row(tmp_path):
    room = Room(tmp_path, 3, AGAIN="0*3")
    status, out, _ = room.run("--id=9F7F")
    said = rf"row 2 unused, \d+\.\d s: card {room.id_of(0)} has row 1, which is done\n"
    assert status == 0 and out.count("has row 1, which is done") == 2, out
    assert re.search(said, out)
    assert [room.cards_of(row) for row in (1, 2, 3)] == [(1, 1)] * 3
    assert len(room.held()) == 3


def test_a_script_that_only_reads_knows_its_cards_too(tmp_path):
    room = Room(tmp_path, 3, AGAIN="0*3")
    room.write("script", "select A0000000031010\nget 9F7F\n")
    status, out, _ = room.run("--id=9F7F")
    assert status == 0 and out.count(f"card {room.id_of(0)} has row 1, which is done") == 2, out
    for number in range(3):
        assert f"row {number + 1} done, card {room.id_of(number)}, " in out


def test_an_empty_identifier_is_none():
    card = Card({AID: {0x9F7F: b""}})
    why = "the card has no identifier 9F7F: it is empty"
    with Terminal() as terminal:
        terminal.run(card.tpdu, Select(AID))
        with pytest.raises(Refused, match=why):
            identity(terminal, card.tpdu, 0x9F7F)
    steps = steps_of(Script("script", f"select {AID.hex()}\nput 50 41\n", []), {})
    found = carry_out(steps, Recorder(card.tpdu), lambda it: identity(it, card.tpdu, 0x9F7F))
    assert found == ("unused", why)
    assert [it.tag for it in card.entries(AID)] == [0x9F7F]


@pytest.mark.parametrize(("number", "state"), [(11, "failed"), (7, "unsure")])
def test_a_card_whose_row_is_not_done_is_refused_too(tmp_path, number, state):
    room = Room(tmp_path, 2, card=number, AGAIN=f"{number}*2")
    out = room.run("--id=9F7F", "--stop-after=9")[1]
    assert f"card {room.id_of(number)} has row 1, which is {state}" in out
    assert listed(out) == {1: state}


def test_again_writes_a_row_once_more_to_its_card(tmp_path):
    room = Room(tmp_path, 3)
    assert room.run("--id=9F7F")[0] == 0
    room.write("rows.csv", (tmp_path / "rows.csv").read_text().replace("PERSON 3", "PERSON 9"))
    assert room.run("--again=3")[2].endswith("row 3 has begun with other cells or another script\n")
    room.write("rows.csv", (tmp_path / "rows.csv").read_text().replace("PERSON 9", "PERSON 3"))
    assert room.run("--again=1", "--again=3")[:2] == (1, "1 of 3 rows done, 0 to decide\n")
    # the card of row 3 comes first: it gets its own row, not the first one
    room.put_in(room.names[0], 2)
    status, out, _ = room.run()
    assert status == 0
    assert f"row 3 done, card {room.id_of(2)}" in out
    assert room.events()[-8:] == [
        *("begin 1", "unused 1", "begin 3", "card 3", "done 3"),
        *("begin 1", "card 1", "done 1"),
    ]
    assert room.held()[f"{room.names[0]}-2"]["24352"] == b"PERSON 3".hex()


def test_without_an_identifier_the_program_says_so_at_its_start(tmp_path):
    room = Room(tmp_path, 1)
    assert room.run()[1].startswith("starting: 0 of 1 row done\n" + NOT_TOLD)
    (tmp_path / "journal").unlink()
    assert "tell cards apart" not in room.run("--id=9F7F")[1]


def test_a_journal_keeps_its_identifier(tmp_path):
    """A run that lacks --id compares cards still."""
    room = Room(tmp_path, 2, card=7)
    assert room.run("--id=9F7F", "--stop-after=1")[0] == 1
    room.put_in(room.names[0], 7)
    assert f"card {room.id_of(7)} has row 1, which is unsure" in room.run()[1]
    assert room.run("--id=51") == refused("journal was created with --id 9F7F")


# Words of a run after a first one, and why they are refused.
ANOTHER = "rows.csv has another journal, {}/journal"
REFUSED = [
    *(("--journal=jurnal", it, "there is no journal jurnal: --new creates it")
      for it in ("--go", "--status", "--check", "--done=1", "--look=1")),
    ("--journal=second", "--new", ANOTHER),
    ("--journal=there/second", "--new", ANOTHER),
    ("--journal=copy", "--go", ANOTHER),
    ("--rows=other.csv", "--go", "journal is the journal of the table {}/rows.csv"),
    ("--journal=journal", "--done=1", "row 1 is done"),
]  # fmt: skip


@pytest.mark.parametrize(("one", "two", "line"), REFUSED)
def test_what_does_not_fit_an_earlier_run_is_refused(tmp_path, one, two, line):
    """It writes no file, and no card."""
    room = Room(tmp_path, 1)
    assert room.run()[0] == 0
    (tmp_path / "there").mkdir()
    for name, copy in (("journal", "copy"), ("rows.csv", "other.csv")):
        if copy in one:
            shutil.copy(tmp_path / name, tmp_path / copy)
    before = {it: it.is_file() and it.read_bytes() for it in tmp_path.rglob("*")}
    assert room.run(one, two, *room.readers) == refused(line.format(tmp_path))
    assert {it: it.is_file() and it.read_bytes() for it in tmp_path.rglob("*")} == before


def test_a_table_names_a_journal_elsewhere(tmp_path):
    room = Room(tmp_path, 1)
    for name in ("one", "two"):
        (tmp_path / name).mkdir()
    assert room.run("--journal=one/journal", "--new", *room.readers)[0] == 0
    link = tmp_path / "rows.csv.1-of-1.journal"
    assert link.is_symlink() and link.resolve() == tmp_path / "one/journal"
    second = ("--journal=two/journal", "--new", *room.readers)
    wanted = refused(f"rows.csv has another journal, {tmp_path}/one/journal")
    assert room.run(*second) == wanted
    # a journal that was thrown away on purpose
    (tmp_path / "one/journal").unlink()
    assert room.run(*second)[0] == 0 and link.resolve() == tmp_path / "two/journal"


def test_a_link_to_an_empty_file_is_from_a_crash(tmp_path):
    room = Room(tmp_path, 1)
    (tmp_path / "one").mkdir()
    (tmp_path / "one/journal").touch()
    (link := tmp_path / "rows.csv.1-of-1.journal").symlink_to(tmp_path / "one/journal")
    words = ("--journal=one/journal", "--new", *room.readers)
    assert room.run(*words)[0] == 0 and link.resolve() == tmp_path / "one/journal"


@pytest.mark.parametrize(("is_writable", "number"), [(False, errno.EROFS), (True, errno.EPERM)])
def test_a_table_whose_folder_takes_no_link(tmp_path, monkeypatch, is_writable, number):
    """It is on a disk that can't be written, or that has no links."""
    room = Room(tmp_path, 1)
    (tmp_path / "one").mkdir()

    def refuse(*_):
        raise OSError(number, os.strerror(number))

    monkeypatch.setattr(os, "access", lambda *_: is_writable)
    monkeypatch.setattr(os, "symlink", refuse)
    assert room.run("--journal=one/journal", "--new", *room.readers)[0] == 0
    assert not (tmp_path / "rows.csv.1-of-1.journal").is_symlink()


def test_a_second_journal_beside_the_first_is_refused(tmp_path):
    """The table's folder could not be written, so no link is there."""
    room = Room(tmp_path, 1)
    (tmp_path / "one").mkdir()
    assert room.run("--journal=one/journal", "--new", *room.readers)[0] == 0
    (tmp_path / "rows.csv.1-of-1.journal").unlink()
    wanted = refused(f"rows.csv has another journal, {tmp_path}/one/journal")
    assert room.run("--journal=one/second", "--new", *room.readers) == wanted


def test_parts_meet_where_they_share_a_row():
    parts = [(at, of) for of in range(1, 7) for at in range(1, of + 1)]
    rows = {(at, of): set(range(at, 61, of)) for at, of in parts}
    for one in parts:
        heading = Heading(*one, None, "", "", "")
        assert [heading.meets(*it) for it in parts] == [bool(rows[one] & rows[it]) for it in parts]


def test_a_folder_that_moves_keeps_its_journal(tmp_path):
    (tmp_path / "before").mkdir()
    room = Room(tmp_path / "before", 1)
    assert room.run()[0] == 0
    (tmp_path / "before").rename(tmp_path / "after")
    room.path = tmp_path / "after"
    assert room.run("--status")[:2] == (0, "1 of 1 row done, 0 to decide\n")


def test_what_has_not_begun_may_change(tmp_path):
    """A cell of another row, further rows, and a comment of the script."""
    room = Room(tmp_path, 3, card=7)
    room.run("--stop-after=1")
    table, script = (tmp_path / "rows.csv").read_text(), "# a word more\n" + SCRIPT
    table = table.replace("PERSON 3", "PERSON X") + "PERSON 4,00000004\n"
    room.write("rows.csv", table)
    room.write("script", script)
    assert room.run("--done=1")[1] == "1 of 4 rows done, 0 to decide\n"
    assert room.run()[0] == 0
    assert b"PERSON X".hex() in {it["24352"] for it in room.held().values()}
    wanted = refused("journal: row 1 has begun with other cells or another script")
    for cells, lines in ((table.replace("PERSON 1", "PERSON Y"), script),
                         (table.replace("00000001", "00000011"), script),
                         (table, script + "get 50\n")):
        room.write("rows.csv", cells)
        room.write("script", lines)
        assert room.run("--status") == wanted


def test_a_row_to_write_again_may_change(tmp_path):
    room = Room(tmp_path, 1)
    assert room.run("--id=9F7F")[0] == 0 and room.run("--again=1")[0] == 1
    room.write("rows.csv", "name,code\nPERSON 9,00000009\n")
    assert room.run()[0] == 0 and room.cards_of(9) == (1, 1)


def test_rows_may_not_go_away(tmp_path):
    room = Room(tmp_path, 2)
    assert room.run()[0] == 0
    room.write("rows.csv", "name,code\nPERSON 1,00000001\n")
    wanted = refused("journal: row 2 has begun, and the table has 1 row")
    assert room.run("--status") == room.run() == wanted
