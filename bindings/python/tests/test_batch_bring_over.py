"""Tests that a journal of version 0.3 is brought over: what it says, each cut and each flipped bit.
The texts are those that version 0.3 wrote."""

import os
import subprocess
import sys
import zlib

import pytest
from galliumtoad.batch.bring_over import Old, main
from galliumtoad.batch.journal import Journal
from room import Room, listed, refused

HEADING = ('# galliumtoad.batch {"at": 1, "of": 1, "id_tag": 40831, "key": "' + "00" * 16
           + '", "table": "rows.csv"}')
DAY = "2026-01-01T00:00:0{}.000+00:00"
STEPS = ["begin 1 0 {} Slot0", "card 1 1 {card}", "done 1 2", "begin 2 3 {} Slot0",
         "card 2 4 43000002", "failed 2 5 worn", "begin 3 6 {} Slot0", "unsure 3 7 it went away",
         "again 3 8 decided", "begin 4 9 {} Slot0"]


def summed(lines):
    text, check = "", 0
    for it in lines:
        check = zlib.crc32(it.encode(), check)
        text += f"{it} {check:08x}\n"
    return text


def old(room, has_sums=True):
    """A journal of version 0.3 of a room, and its lines."""
    from test_batch import journal_check

    lines = [HEADING]
    for it in STEPS:
        word, row, at, *note = it.split(" ", 3)
        note = "".join(note).format(journal_check(room, int(row)), card=room.id_of(0))
        lines.append(f"{word} {row} {DAY.format(at)} {note}".rstrip())
    text = summed(lines) if has_sums else "\n".join([*lines, ""])
    (room.path / "people.journal").write_text(text)
    return text


def brought(room, new="journal"):
    return main([str(room.path / "people.journal"), str(room.path / new)])


@pytest.mark.parametrize("has_sums", [True, False])
def test_a_journal_of_0_3_is_brought_over_and_continued(tmp_path, has_sums, capsys):
    room = Room(tmp_path, 6, LIES="yes")
    old(room, has_sums)
    assert room.run("--journal=people.journal", "--status") == refused(
        "people.journal is not a journal of this version: galliumtoad.batch.bring_over makes one"
        " of it")
    assert brought(room) == 0
    assert capsys.readouterr().out.startswith("4 rows brought over: use ")
    status, out, _ = room.run("--status")
    assert (status, listed(out)) == (1, {2: "failed", 4: "unsure"})
    assert out.endswith("1 of 6 rows done, 2 to decide\n")
    assert room.events() == [" ".join(it.split()[:2]) for it in STEPS]
    journal = room.opened(6)
    rows = [(it.state, it.card, it.ended and it.ended - it.begun) for it in journal.begun()]
    assert rows == [("done", room.id_of(0), 2), ("failed", "43000002", 2), ("free", None, 1),
                    ("unsure", None, 0)]
    for row in (1, 2, 3, 4):
        assert journal.history(row)
    journal.close()
    # the card of a row that is done is known
    out = room.run("--again=4")[1]
    room.put_in(room.names[0], 0)
    del room.environment["LIES"]
    assert f"card {room.id_of(0)} has row 1, which is done" in room.run("--stop-after=9")[1]
    assert [it for it, in room.asked("SELECT state FROM rows WHERE number <> 2")] == ["done"] * 5


def test_it_is_brought_over_once(tmp_path, capsys):
    room = Room(tmp_path, 4)
    old(room)
    before = (tmp_path / "people.journal").read_text()
    assert brought(room) == 0 and brought(room) == 2
    assert "journal exists: " in capsys.readouterr().err
    assert brought(room, "other") == 0  # which no run takes
    wanted = refused(f"rows.csv has another journal, {tmp_path}/other")
    assert room.run() == wanted
    assert (tmp_path / "people.journal").read_text() == before
    assert sorted(it.name for it in tmp_path.glob("*journal*")) == ["journal", "people.journal"]


def test_a_link_beside_the_table_names_the_new_journal(tmp_path):
    (tmp_path / "room").mkdir()
    room = Room(tmp_path / "room", 4)
    text = old(room).splitlines()
    lines = [it[:-9] for it in text]
    lines[0] = lines[0].replace("rows.csv", "room/rows.csv")
    (tmp_path / "people.journal").write_text(summed(lines))
    (link := room.path / "rows.csv.1-of-1.journal").symlink_to(tmp_path / "people.journal")
    assert main([str(tmp_path / "people.journal"), str(tmp_path / "new")]) == 0
    assert os.readlink(link) == str(tmp_path / "new")


def test_each_cut_is_one_of_a_crash(tmp_path):
    room = Room(tmp_path, 4)
    data = old(room).encode()
    file, first = tmp_path / "people.journal", data.index(b"\n") + 1
    for kept in range(first, len(data) + 1):
        file.write_bytes(data[:kept])
        assert len(Old(str(file)).log) == data[:kept].count(b"\n") - 1
    for kept in range(first):
        file.write_bytes(data[:kept])
        with pytest.raises(ValueError, match="is not a journal of version 0.3"):
            Old(str(file))


def test_each_bit_that_flips_is_found(tmp_path):
    room = Room(tmp_path, 4)
    data, file = old(room).encode(), tmp_path / "people.journal"
    for at in range(len(data)):
        changed = bytearray(data)
        changed[at] ^= 1 << at % 8
        file.write_bytes(changed)
        with pytest.raises(ValueError, match="people.journal is (not a|damaged: line )"):
            Old(str(file))


@pytest.mark.parametrize("line", [
    "d\0ne 1 T", "done T", "done x T", "done 0 T", "done -1 T", "done 9 T", "begin 2",
    "begin 2 2026-01-01 00:00 A", "begin 2 noon 00 A", ""])
def test_a_wrong_line_is_found(tmp_path, line):
    room = Room(tmp_path, 4)
    text = [it[:-9] for it in old(room).splitlines()]
    text.append(line.replace("T", DAY.format(9)))
    (tmp_path / "people.journal").write_text(summed(text))
    with pytest.raises(ValueError, match="line 12: no line of a journal"):
        Old(str(tmp_path / "people.journal"))


def test_a_full_disk_leaves_no_part_of_a_journal(tmp_path):
    """An empty one would give all rows once more."""
    room = Room(tmp_path, 4)
    old(room)
    limits = """import resource, signal, sys
resource.setrlimit(resource.RLIMIT_FSIZE, (int(sys.argv[1]),) * 2)
signal.signal(signal.SIGXFSZ, signal.SIG_IGN)
from galliumtoad.batch.bring_over import main
raise SystemExit(main(["people.journal", "journal"]))
"""
    for size in range(0, 70000, 4096):
        done = subprocess.run([sys.executable, "-c", limits, str(size)], cwd=tmp_path,
                              env=room.environment, capture_output=True, text=True)
        found = [it.name for it in tmp_path.glob("journal*")]
        if done.returncode == 0:
            break
        assert done.stderr.count("\n") == 1 and found == []
    assert size > 30000 and found == ["journal"]
    assert len([*Journal(str(tmp_path / "journal"), True).begun()]) == 4
