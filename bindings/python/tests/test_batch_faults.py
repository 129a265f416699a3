"""Tests batches whose cards are pulled at each of their commands, whose readers come and go or
fail, and whose machine loses its power."""

import os
import random
import shutil
import signal
import subprocess
import time

import pytest
from galliumtoad import Card, Select, Terminal
from galliumtoad.batch.script import Recorder, Script, carry_out, compared
from room import AID, HERE, SCRIPT, Room, ended, lines_up_to, refused, steps_of, told

ROW = {"name": "PERSON 1", "code": "00000001"}
VALUES = {0x5F20: b"PERSON 1", 0x9F36: bytes.fromhex("00000001"), 0x50: b"A" * 300}
LOSSES = 3 if int(os.environ.get("CARDS", 250)) < 100 else 8


class Pulled:
    """A transport to a card that is pulled at a command, before or after the card carries it out.
    `sent` counts the commands."""

    def __init__(self, card, at, is_carried_out):
        self.card, self.at, self.is_carried_out, self.sent = card, at, is_carried_out, 0

    def __call__(self, tpdu):
        self.sent += 1
        if self.sent == self.at and not self.is_carried_out:
            raise ConnectionError("the card was removed")
        answer = self.card.tpdu(tpdu)
        if self.sent == self.at:
            raise ConnectionError("the card was removed")
        return answer


def test_a_card_is_pulled_at_each_command():
    script = Script("script", SCRIPT, [*ROW])
    made, whole, words = steps_of(script, ROW), Pulled(Card({AID: {}}), 0, False), []
    assert carry_out(made, Recorder(whole)) == ("done", "")
    for at in range(1, whole.sent + 1):
        for is_carried_out in (False, True):
            card = Card({AID: {}})
            outcome = carry_out(made, Recorder(Pulled(card, at, is_carried_out)))
            held = {it.tag: it.value for it in card.entries(AID)}
            is_written = at >= 3  # a select, its response, and the first put
            assert outcome == ("unsure" if is_written else "unused", "the card was removed")
            same = sum(held.get(tag) == value for tag, value in VALUES.items())
            with Terminal() as reset:
                reset.run(card.tpdu, Select(AID))
            wanted = {0: "untouched", 3: "done"}.get(same, f"partly: {same} of 3 objects")
            assert compared(made, card.tpdu) == wanted
            words.append(wanted)
    assert set(words) == {"untouched", "done", "partly: 1 of 3 objects", "partly: 2 of 3 objects"}


def test_a_run_whose_cards_are_pulled(tmp_path):
    """Each card is pulled one command later than the one before; --look finds what it holds."""
    room = Room(tmp_path, 18, PULLED="yes")
    room.finish(18, "--id=9F7F")
    assert any("unsure" in it for it in room.events())


def test_a_reader_that_fails_five_cards_is_set_aside(tmp_path):
    room = Room(tmp_path, 4, readers=2, SLOW="0.03")
    room.environment["MUTE"] = " ".join(f"{room.names[0]}-{at}" for at in range(20))
    status, out, error = room.run()
    mute = f"{room.names[0]}: the card does not answer to reset"
    aside = f"{room.names[0]}: set aside: 5 cards in a row failed"
    assert (status, error) == (0, "")
    assert [it for it in told(out) if it.startswith(room.names[0])] == [mute] * 5 + [aside]


def test_a_card_that_is_done_begins_the_count_again(tmp_path):
    room = Room(tmp_path, 2, MUTE="0 1 2 3 6 7 8")
    status, out, _ = room.run()
    name = room.names[0]
    mute = f"{name}: the card does not answer to reset"
    other = f"{name}: row 2 unused: select was answered 6A82 file or application not found"
    assert status == 0 and told(out)[:-1] == [
        *[mute] * 4, f"{name}: row 1 done", other, *[mute] * 3, f"{name}: row 2 done"
    ]  # fmt: skip


@pytest.mark.parametrize(("variable", "value"), [("MUTE", "0 1 2 3 4 5 6"), ("WORN", "yes")])
def test_a_run_ends_when_all_readers_are_set_aside(tmp_path, variable, value):
    room = Room(tmp_path, 9, **{variable: value})
    status, out, _ = room.run()
    aside = f"{room.names[0]}: set aside: 5 cards in a row failed"
    assert status == 1 and told(out)[5] == aside
    failed = 0 if variable == "MUTE" else 5
    assert told(out)[-1] == f"0 of 9 rows done, {failed} to decide"


def test_a_run_stops_after_failures(tmp_path):
    room = Room(tmp_path, 9, WORN="yes")
    status, out, _ = room.run("--stop-after=3")
    assert status == 1 and told(out)[3] == "stopped: 3 rows failed"
    assert told(out)[-1] == "0 of 9 rows done, 3 to decide" and "begin 4" not in room.events()
    room.put_in(room.names[0], 9)
    assert "\nstopped: 1 row failed\n" in room.run("--stop-after=1")[1]


def test_a_reader_that_comes_and_goes(tmp_path):
    room = Room(tmp_path, 6, readers=2, SLOW="0.05")
    run = room.start()
    room.begun("done")
    for name in room.names:
        (tmp_path / name / "away").touch()
    lines_up_to(run, *(f"{it}: the reader is gone: unplugged\n" for it in room.names))
    assert run.poll() is None
    # the second reader does not come back
    (tmp_path / room.names[0] / "away").unlink()
    out, error = ended(run)
    assert error == "" and f"{room.names[1]}: row" not in out and out.count(" done") >= 2
    assert "the reader is gone" not in out
    assert out.endswith(" to decide\n") and len(set(room.events()) & {"begin 5", "begin 6"}) == 2
    (tmp_path / room.names[1] / "away").unlink()
    room.finish(6)


def test_a_pcscd_that_goes_away_is_waited_for(tmp_path):
    room = Room(tmp_path, 3, SLOW="0.05")
    run = room.start()
    room.begun("done")
    (tmp_path / "gone").touch()
    lines_up_to(run, "the reader is gone: error 9")
    (tmp_path / "gone").unlink()
    out, error = ended(run)
    assert (run.returncode, error) == (0, "") and out.endswith("3 of 3 rows done, 0 to decide\n")


def parts(room, count=2):
    """Gives each part of the table a journal and a reader, one after another."""
    for at in range(1, count + 1):
        words = [f"--part={at}/{count}", f"--journal=j{at}", "--new", room.readers[at - 1]]
        assert room.run(*words, "--id=9F7F")[0] == 0
    return [f"--journal=j{at}" for at in range(1, count + 1)]


def test_machines_share_a_table(tmp_path):
    room = Room(tmp_path, 7, readers=3)
    journals = parts(room, 3)
    assert [room.cards_of(row) for row in range(1, 8)] == [(1, 1)] * 7
    steps = "SELECT number FROM log WHERE word = 'begin' ORDER BY rowid"
    begun = [[row for row, in room.asked(steps, of=f"j{at}")] for at in (1, 2, 3)]
    assert begun == [[1, 4, 7], [2, 5], [3, 6]]
    assert room.run("--status", *journals) == (0, "7 of 7 rows done, 0 to decide\n", "")
    assert room.run("--status", *journals[:2])[1] == "5 of 5 rows done, 0 to decide\n"
    wanted = refused(f"rows.csv has another journal, {tmp_path}/j3")
    assert room.run("--journal=j4", "--new", "--part=3/6", *room.readers) == wanted


def test_a_row_that_two_journals_have_is_an_error(tmp_path):
    room = Room(tmp_path, 4, readers=2)
    journals = parts(room)
    shutil.copy(tmp_path / "j1", tmp_path / "j2")
    for words in ((), ("--report=all.html",)):
        assert room.run("--status", *journals, *words) == refused("row 1 is in j1 and in j2")
    assert not (tmp_path / "all.html").exists()


def lose_power(room, disk):
    """Drops what was not on the disk for sure."""
    (room.path / "journal-shm").unlink(missing_ok=True)
    for name in ("journal", "journal-journal", "journal-wal"):
        (room.path / name).unlink(missing_ok=True)
        if (disk / name).exists() and (disk / f"{name}.named").exists():
            (room.path / name).write_bytes((disk / name).read_bytes())


def test_no_row_is_on_two_cards_after_a_power_loss(tmp_path):
    (tmp_path / "room").mkdir()
    (tmp_path / "disk").mkdir()
    room, at_random = Room(tmp_path / "room", 40, readers=2), random.Random(3)
    library, counts = tmp_path / "on_disk.so", []
    warnings = ["-Wall", "-Wextra", "-Werror", "-shared", "-fPIC", "-o", library]
    subprocess.run(["cc", *warnings, HERE / "power/on_disk.c"], check=True)
    # LD_PRELOAD can't name a folder with a space
    room.environment.update(LD_PRELOAD=library.name, LD_LIBRARY_PATH=str(tmp_path))
    room.environment.update(ON_DISK=str(tmp_path / "disk"), SLOW="0.01")
    room.is_apart = True  # so that its decisions are on that disk, too
    for _ in range(LOSSES):
        run = room.start("--id=9F7F", go=False)
        before, steps = len(room.events()), at_random.randrange(1, 12)
        while len(room.events()) < before + steps and run.poll() is None:
            time.sleep(0.002)
        if run.poll() is None:
            os.killpg(run.pid, signal.SIGKILL)
        ended(run)
        lose_power(room, tmp_path / "disk")
        counts.append(len(room.events()))
        room.decide()
    assert counts[-1] > counts[0] and min(counts) > 0
    room.finish(40)
