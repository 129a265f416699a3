"""Tests what an operator sees of a batch: lines, a bar, dialogues without values, reports, and what
a card in doubt holds."""

import contextlib
import csv
import io
import os
import pty
import re
import select
import shlex
import signal
import subprocess
import time
from datetime import datetime, timedelta, timezone
from xml.etree import ElementTree

import pytest
from galliumtoad import Card, __version__
from galliumtoad.batch import report
from galliumtoad.batch.journal import Entry, Run
from galliumtoad.batch.script import Recorder, Script, carry_out, compared, identity
from room import (AID, SCRIPT, Room, ended, folder_of_programs, interruptible, lines_up_to,
                  listed, refused, steps_of, told)


def test_lines_of_a_run(tmp_path):
    room = Room(tmp_path, 2)
    out = room.run("--id=9F7F", go=False)[1].splitlines()
    name = room.names[0]
    assert out[0] == "starting: 0 of 2 rows done"
    assert out[2] == f"{name}: insert a card for row 1"
    done = rf"{name}: row (\d) done, card {room.id_of(1)[:-2]}..(, \d+\.\d s)"
    assert [re.fullmatch(done, it)[1] for it in out if " done, card" in it] == ["1", "2"]


def test_a_run_tells_where_it_continues(tmp_path):
    room = Room(tmp_path, 4, card=7)
    room.run("--stop-after=1", "--id=9F7F")
    room.put_in(room.names[0], 11)
    room.run("--stop-after=1")
    room.put_in(room.names[0], 2)
    out = room.run()[1]
    assert out.startswith("continuing: 0 of 4 rows done, 1 failed, 1 unsure\n")
    assert out.endswith("2 of 4 rows done, 2 to decide\n")


@pytest.mark.parametrize("encoding", ["utf-8", "ascii"])
def test_a_reader_with_a_name_in_another_script(tmp_path, encoding):
    """Also if the output lacks its letters. The journal has them, and stays one."""
    room, name = Room(tmp_path, 2, readers=0, PYTHONIOENCODING=encoding), f"L\u00e4ser{os.getpid()}"
    room.add_reader(name)
    room.is_apart = True
    shown = name if encoding == "utf-8" else name.replace("\u00e4", "\\xe4")
    status, out, error = room.run("--reader=ser", "--stop-after=1")
    assert (status, error) == (0, "") and f"{shown}: row 2 done" in out
    (tmp_path / "there").mkdir()
    second = ("--new", "--journal=there/second", "--reader=ser")
    assert room.run(*second) == refused(f"rows.csv has another journal, {tmp_path}/journal")
    assert room.run("--again=1")[:2] == (1, "1 of 2 rows done, 0 to decide\n")


def test_a_column_s_name_in_another_encoding(tmp_path):
    """A reason may have it, and so does the journal."""
    room = Room(tmp_path, 1, WORN="yes")
    (tmp_path / "script").write_bytes(b"select A0000000031010\nput {\xe9} @{name}\n")
    (tmp_path / "rows.csv").write_bytes(b"name,\xe9\nPERSON 1,50\n")
    assert "put {\\udce9} was answered 9000, and read back" in room.run("--stop-after=1")[1]
    assert room.to_decide() == {1: "failed"}


def test_a_card_is_asked_for_once(tmp_path):
    """Also after one that did not answer to reset."""
    room = Room(tmp_path, 1, MUTE="0", LIES="yes")
    run, name = room.start(), room.names[0]
    assert "insert a card" not in "".join(lines_up_to(run, "does not answer to reset"))
    (tmp_path / name / "out").touch()
    time.sleep(2)
    room.put_in(name, 1)
    (tmp_path / name / "out").unlink()
    out, error = ended(run)
    assert error == "" and out.count(f"{name}: insert a card for row 1\n") == 1
    assert out.endswith("1 of 1 row done, 0 to decide\n")


def test_a_reader_without_a_row_asks_for_no_card(tmp_path):
    """Another one waits with the last row for its card."""
    room = Room(tmp_path, 1, readers=2, LIES="yes")
    for name in room.names:
        (tmp_path / name / "out").touch()
    lines = lines_up_to(run := room.start(), "insert a card for row 1\n")
    time.sleep(1)
    (tmp_path / lines[-1].partition(":")[0] / "out").unlink()
    assert "row None" not in "".join(lines) + ended(run)[0]


def test_a_row_in_doubt_is_shown_with_its_card(tmp_path):
    room = Room(tmp_path, 1, card=7)
    room.run("--stop-after=1", "--id=9F7F")
    lines = room.run("--status")[1].splitlines()
    when = r"\d{4}-\d\d-\d\d \d\d:\d\d:\d\d"
    about = rf"row 1 unsure: card {room.id_of(7)}, {room.names[0]}, {when}: the card was removed"
    assert re.fullmatch(about, lines[0])
    assert lines[1] == "  --look 1 compares that card; then --done 1 or --again 1"


def test_each_step_in_a_journal_has_its_time(tmp_path):
    room, begun = Room(tmp_path, 1), time.time()
    room.run("--id=9F7F")
    times = [it for it, in room.asked("SELECT at FROM log ORDER BY step")]
    assert len(times) == 3 and times == sorted(times)
    assert begun - 0.01 <= times[0] and times[-1] <= time.time() + 0.01


class Terminal:
    """A run on a terminal."""

    def __init__(self, room, *words):
        self.ours, theirs = pty.openpty()
        how = {"cwd": room.path, "env": room.environment}
        # the terminal of the run's own session
        program = ["setsid", "-c", "-w", *room.words(*words, go=False)]
        ends = {"stdin": theirs, "stdout": theirs, "stderr": theirs}
        self.run, self.text = subprocess.Popen(program, **ends, **how), ""
        os.close(theirs)

    def read(self, until=None, seconds=60):
        """Reads until a text comes, or to the end. Fails if the run ends before the text."""
        end = time.monotonic() + seconds
        while until is None or until not in self.text:
            assert time.monotonic() < end, self.text
            if select.select([self.ours], [], [], 0.1)[0]:
                try:
                    self.text += os.read(self.ours, 65536).decode(errors="replace")
                except OSError:
                    assert until is None, self.text
                    break
        return self.text

    def kill(self):
        """Kills the run. Its reader is free for the next one."""
        self.run.kill()
        self.run.wait()
        os.close(self.ours)


@pytest.mark.parametrize("without", [":", "exec >&-", "exec 2>&-", "exec <&-"])
def test_a_run_without_a_terminal_of_its_own_or_a_stream(tmp_path, without):
    """In a shell whose standard input is the terminal of another session, or without a stream."""
    room, (ours, theirs) = Room(tmp_path, 2, SLOW="0.1"), pty.openpty()
    shell = f"{without}; exec {shlex.join(room.words())}"
    run = subprocess.run(["setsid", "-w", "sh", "-c", shell], cwd=tmp_path, env=room.environment,
                         stdin=theirs, stdout=subprocess.PIPE, stderr=subprocess.PIPE, timeout=60)
    assert (run.returncode, run.stderr) == (0, b"")
    assert room.events() == ["begin 1", "done 1", "begin 2", "done 2"]
    os.close(ours)
    os.close(theirs)


def test_enter_writes_the_card_that_lies_in_the_reader(tmp_path):
    room = Room(tmp_path, 2, LIES="yes", PYTHONIOENCODING="utf-8")
    terminal = Terminal(room)
    terminal.read("or press Enter to write it")
    time.sleep(0.8)
    assert not room.held() and terminal.run.poll() is None
    os.write(terminal.ours, b"\xE4\n")  # not UTF-8
    assert "2 of 2 rows done" in terminal.read("to decide")
    assert terminal.run.wait(60) == 0
    assert sorted(room.held()) == [f"{room.names[0]}-0", f"{room.names[0]}-1"]


def test_enter_does_not_write_a_card_that_was_written(tmp_path):
    room = Room(tmp_path, 2, LIES="yes", STAYS="yes")
    terminal = Terminal(room)
    terminal.read("or press Enter to write it")
    os.write(terminal.ours, b"\n")
    terminal.read("row 1 done")
    for _ in range(3):
        os.write(terminal.ours, b"\n")
        time.sleep(0.3)
    assert room.events() == ["begin 1", "done 1"]
    terminal.kill()


def test_a_bar_counts_the_rows_of_its_run_for_the_rate(tmp_path):
    room = Room(tmp_path, 20)
    assert room.run("--stop-after=1")[0] == 1  # a card is pulled
    done = sum(it.startswith("done ") for it in room.events())
    room.environment["SLOW"] = "0.4"
    terminal = Terminal(room)
    text = terminal.read(" a minute")
    assert done > 3 and f"{done} of 20 rows, 0 a minute" in text
    terminal.kill()


def test_a_part_without_a_row_has_nothing_to_do(tmp_path, monkeypatch):
    """And a bar on a terminal."""
    room = Room(tmp_path, 3)
    wanted = "0 of 0 rows done, 0 to decide\n"
    assert room.run("--part=5/5")[:2] == (0, room.run()[1]) and room.run()[1].endswith(wanted)
    at, shown = room.desk(3), io.StringIO()
    monkeypatch.setattr(shown, "isatty", lambda: True, raising=False)
    with contextlib.redirect_stdout(shown):
        at._turn()
    assert shown.getvalue() == f"\r\x1b[K[{'-' * 20}] 0 of 0 rows, 0 a minute"


def test_an_interrupt_before_a_card_is_told_in_a_line(tmp_path):
    room = Room(tmp_path, 1, LIES="yes")
    assert room.run("--stop-after=1")[0] == 0
    (tmp_path / room.names[0] / "out").touch()
    run = interruptible(room, "--look=1", *room.readers)
    assert run.stdout.readline() == f"{room.names[0]}: insert the card of row 1\n"
    run.send_signal(signal.SIGINT)
    assert ended(run)[1] == "galliumtoad.batch: interrupted\n" and run.returncode == 2


def test_a_bar_on_a_terminal(tmp_path):
    room = Room(tmp_path, 4, SLOW="0.08")
    text = Terminal(room).read("to decide")
    bar = r"\r\x1b\[K\[([#-]{20})\] (\d) of 4 rows, (\d+) a minute(, \d+ min left)?"
    bars = re.findall(bar, text)
    assert ("-" * 20, "0", "0", "") in bars
    assert any(bar == "#" * (int(done) * 5) + "-" * (20 - int(done) * 5) and left
               for bar, done, _, left in bars if done != "0")
    assert all(len(set(bar)) == 1 or int(done) for bar, done, _, _ in bars)
    # no line is a mixture: the bar is wiped first
    lines = [it.split("\x1b[K")[-1] for it in text.replace("\r\n", "\n").split("\n")]
    named = [it for it in lines if room.names[0] in it]
    assert len(named) > 4 and all(it.startswith(room.names[0]) for it in named)
    assert "\x1b" not in room.run("--status")[1]


SECRET = "select A0000000031010\nput 5F20 @{name}\nput {tag} {code}\nsend {apdu}\nput 50 41*300\n"


def test_a_dialogue_is_kept_without_a_value(tmp_path):
    """Each operation of the script is refused in turn, and the card returns what it got."""
    room = Room(tmp_path, 1, WORN="yes")
    room.write("script", SECRET)
    text = "name,tag,code,apdu\nJANE DOE,9F36,C0DE77,00DA5F2403C1C2C3\n"
    room.write("rows.csv", text)
    room.run("--stop-after=1", "--id=9F7F")
    file = tmp_path / "journal.cards/1.trace"
    kept = file.read_text()
    assert [it.name for it in file.parent.iterdir()] == ["1.trace"]
    lines = kept.splitlines()
    why = "put 50 was answered 9000, and read back another value"
    first = rf"# row 1, card {room.id_of(0)}, {room.names[0]}, failed, 20[-0-9T:+]+: {why}"
    assert re.fullmatch(first, lines[0])
    operations = ("1: select", "2: put 5F20", "3: put {tag}", "4: send", "5: put 50")
    named = [f"# line {it}" for it in operations]
    assert [it for it in lines[1:] if it[0] == "#" and "**" not in it] == named
    shown = kept.upper().split("\n", 1)[1]
    for cell in text.splitlines()[1].split(","):
        for form in (cell.encode().hex().upper(), cell.upper()):
            assert form not in shown, cell
    assert "5F24" not in shown and "C1C2" not in shown and "DEADBEEF" not in shown
    # headers of literal words, lengths and statuses are there
    for header, size in [("00A4040007", 7), ("00DA5F2008", 8), ("10DA0050FF", 255)]:
        assert f"> {header}\n# > ** {size} bytes\n" in kept
    assert "# line 4: send\n# > ** 8 bytes\n< " in kept  # the whole command is a cell
    for line in lines[1:]:
        assert re.fullmatch(r"# [<>] \*\* \d+ bytes|# line .*|< [0-9A-F]{4}|> [0-9A-F]{10}", line)
    # trace_explain names the rest
    done = subprocess.run([f"{folder_of_programs()}/trace_explain"], input=kept, text=True,
                          capture_output=True)
    assert done.returncode == 0 and "protocol   errors: 0" in done.stdout
    for text in ("SELECT by identifier", "PUT DATA of 5F20", "9000 normal processing"):
        assert text in done.stdout


def test_a_dialogue_shows_the_header_of_each_select():
    """A cell is in its data alone."""
    row, recorder = {"aid": "A0000000031010"}, Recorder(Card({AID: {}}).tpdu)
    steps = steps_of(Script("script", "select {aid}\n", ["aid"]), row)
    assert carry_out(steps, recorder)[0] == "done"
    assert recorder.lines[1:3] == ["> 00A4040007", "# > ** 7 bytes"]


@pytest.mark.parametrize("more", ["", "put 50 41\n"])
def test_a_dialogue_shows_how_a_card_is_identified(more):
    """The line before has a cell in its header, which is hidden."""
    recorder = Recorder(Card({AID: {0x5F20: b"JOE", 0x9F7F: b"7"}}).tpdu)
    script = Script("script", f"select A0000000031010\nget {{tag}}\n{more}", ["tag"])
    found = []

    def identify(terminal):
        found.append(identity(terminal, recorder, 0x9F7F))

    assert carry_out(steps_of(script, {"tag": "5F20"}), recorder, identify)[0] == "done"
    assert found == ["37"] and "> 00CA9F7F00" in recorder.lines
    assert "5F20" not in "".join(recorder.lines)


def test_a_second_dialogue_follows_the_first(tmp_path):
    room = Room(tmp_path, 1, WORN="yes")
    for _ in range(2):
        room.run("--stop-after=1")
        room.run("--again=1")
    text = (tmp_path / "journal.cards/1.trace").read_text()
    assert text.count("# row 1, card unknown, ") == 2


def test_a_dialogue_that_can_not_be_kept_is_named(tmp_path):
    room = Room(tmp_path, 1, WORN="yes")
    (tmp_path / "journal.cards").write_text("")
    out = room.run("--stop-after=1")[1]
    assert "the dialogue of row 1 is lost: File exists" in out and listed(out) == {1: "failed"}


def rows_of(page):
    """The cells of each row of a page."""
    return [["".join(cell.itertext()) for cell in row] for row in page.iter("tr")]


def test_reports(tmp_path):
    room = Room(tmp_path, 4, card=10)
    who = ("--station=desk 1", "--operator=Ann")
    status, out, _ = room.run("--id=9F7F", "--report=day.html", *who)
    assert status == 1 and listed(out) == {2: "failed"}
    assert room.run("--status", "--report=day.csv")[0] == 1
    twice = room.run("--status", "--journal=journal", "--journal=journal")
    assert twice == room.run("--status") and twice[1].endswith(", 1 to decide\n")
    page = ElementTree.fromstring(text := (tmp_path / "day.html").read_text())
    with open(tmp_path / "day.csv", newline="") as file:
        rows = list(csv.reader(file))
    assert [it[:10] for it in rows] == rows_of(page)
    assert rows[0] == ["row", "key", "id", "reader", "station", "operator", "time", "seconds",
                       "outcome", "reason", "table", "script", "version"]
    why = "put 50 was answered 9000, and read back another value"
    numbers = (10, 11, 12, 13)
    for row, (number, found) in enumerate(zip(numbers, rows[1:]), 1):
        ended = ["failed", why] if number == 11 else ["done", ""]
        who = [str(row), "", room.id_of(number), room.names[0], "desk 1", "Ann"]
        assert found[:6] == who and found[8:10] == ended
        assert re.fullmatch(r"\d+\.\d", found[7]) and datetime.fromisoformat(found[6])
        assert found[10:] == ["rows.csv", found[11], __version__] and len(found[11]) == 16
    assert "<p>3 of 4 rows done, 1 failed, 0 unsure</p>" in text and "(median)" in text
    assert "PERSON" not in text and b"PERSON".hex().upper() not in text.upper()
    line = page.find(".//polyline").get("points")
    points = [tuple(map(float, it.split(","))) for it in line.split()]
    assert len(points) == 3 and points == sorted(points, key=lambda it: (it[0], -it[1]))
    assert points[0] == (0.0, 100.0) and points[-1] == (600.0, 0.0)


def test_a_report_has_the_seconds_of_a_row(tmp_path):
    begun = datetime(2026, 1, 1, tzinfo=timezone.utc)
    for seconds, shown in ((0, ""), (0.04, "0.0"), (95.26, "95.3")):
        it = Entry(3, "K7", None, "done", "", "Slot0", "0A", "00", begun.timestamp(),
                   begun.timestamp() + seconds)
        line = report._line(it, Run("desk 1", "Ann"))
        assert datetime.fromisoformat(line.pop(6)) == begun
        assert line == ["3", "K7", "0A", "Slot0", "desk 1", "Ann", shown, "done", ""]


def test_a_report_shows_signs_as_they_are(tmp_path):
    room = Room(tmp_path, 1, readers=0)
    name = f"<b>&R {os.getpid()}"
    room.add_reader(name)
    room.run("--reader=<b>", "--report=day.html")
    assert rows_of(ElementTree.parse(tmp_path / "day.html"))[1][3] == name


def test_the_name_of_a_reader_controls_no_terminal(tmp_path):
    room, name = Room(tmp_path, 1, readers=0, WORN="yes"), f"R{os.getpid()}\x9b"
    room.add_reader(name)
    out, shown = room.run("--reader=R", "--stop-after=1")[1], name.replace("\x9b", "\\x9b")
    assert f"{shown}: row 1 failed" in out and f"row 1 failed: a card without an id, {shown}" in out
    assert "\x9b" not in out


def test_a_report_is_whole_at_each_moment(tmp_path):
    room = Room(tmp_path, 12, SLOW="0.03")
    run, seen, is_over = room.start("--report=day.html"), set(), False
    while not is_over:
        time.sleep(0.02)
        is_over = run.poll() is not None
        if (tmp_path / "day.html").exists():
            text = (tmp_path / "day.html").read_text()
            assert text.startswith("<!DOCTYPE html>") and text.endswith("</html>\n")
            seen.add(len(rows_of(ElementTree.fromstring(text))))
    ended(run)
    assert len(seen) > 2 and max(seen) == 13


def test_a_report_that_can_not_be_written_is_named_before_any_card(tmp_path):
    room = Room(tmp_path, 2)
    why = f"[Errno 2] No such file or directory: 'nowhere/day.html.{os.getpid()}.new'"
    assert room.run("--report=nowhere/day.html") == refused(why) and not room.held()


def test_two_processes_write_one_report(tmp_path, monkeypatch):
    """The second writes all of it while the first one does."""
    path = str(tmp_path / "day.csv")

    def write_another(file):
        monkeypatch.undo()
        if not (child := os.fork()):
            report.write(path, [])
            os._exit(0)
        assert os.waitpid(child, 0)[1] == 0

    monkeypatch.setattr(report.os, "fsync", write_another)
    report.write(path, [])
    assert (tmp_path / "day.csv").read_text().startswith("row,key,id,reader,")
    assert [it.name for it in tmp_path.iterdir()] == ["day.csv"]


def test_a_report_that_is_lost_stops_no_card(tmp_path):
    room = Room(tmp_path, 1000, SLOW="0.05")
    (tmp_path / "here").mkdir()
    run = interruptible(room, "--report=here/day.html")
    room.begun()
    (tmp_path / "here").rename(tmp_path / "there")
    why = f"[Errno 2] No such file or directory: 'here/day.html.{run.pid}.new'"
    lines_up_to(run, f"no report: {why}\n")
    lines_up_to(run, " done, ")
    run.send_signal(signal.SIGINT)
    error = ended(run)[1]
    assert (run.returncode, error) == (2, f"galliumtoad.batch: {why}\n")


ALL = {0x5F20: b"JANE", 0x9F36: b"\0\x77", 0x50: b"A" * 300}


@pytest.mark.parametrize(("values", "script", "word"), [
    (ALL, SCRIPT, "done"),
    ({}, SCRIPT, "untouched"),
    ({0x5F20: b"JANE"}, SCRIPT, "partly: 1 of 3 objects"),
    ({**ALL, 0x50: b"A" * 299}, SCRIPT, "partly: 2 of 3 objects"),
    ({0x50: b"VISA"}, SCRIPT, "untouched, if 1 other value is its own"),
    ({0x50: b"VISA", 0x5F20: b"JOE"}, SCRIPT, "untouched, if 2 other values are its own"),
    (ALL, SCRIPT + "send 00CA005000\n", "partly: 3 of 3 objects, and 1 send can't be read back"),
    ({}, SCRIPT + "send 00CA005000\n" * 2,
     "partly: 0 of 3 objects, and 2 sends can't be read back"),
    (ALL, "select A0000000031010\nget 5F20\n", "unknown: the script stores nothing"),
    # the last value of a tag counts, and an object of each application
    (ALL, SCRIPT + "put 50 42\n", "partly: 2 of 3 objects"),
    (ALL, SCRIPT + "select A0000000031011\nput 50 41*300\n", "partly: 3 of 4 objects"),
])  # fmt: skip
def test_a_card_is_compared_with_a_row(values, script, word):
    """And stays as it is."""
    steps = steps_of(Script("script", script, ["name", "code"]), {"name": "JANE", "code": "0077"})
    card = Card({AID: values})
    before = card.entries(AID)
    assert compared(steps, card.tpdu) == word and card.entries(AID) == before


def test_look_finds_what_a_card_holds(tmp_path):
    room = Room(tmp_path, 2, card=11)
    room.run("--stop-after=1", "--id=9F7F")
    words = ("--look=1", *room.readers)
    room.environment["LIES"] = "yes"
    room.put_in(room.names[0], 11)
    before = room.dump()
    card = f"card {room.id_of(11)}"
    assert room.run(*words) == (1, f"row 1, {card}: partly: 2 of 3 objects\n", "")
    # a look writes nothing, also where the card differs from the row
    file = tmp_path / f"cards/{room.names[0]}-11"
    file.write_text(file.read_text().replace(b"PERSON 1".hex(), b"PERSON 9".hex()))
    held = file.read_bytes()
    room.put_in(room.names[0], 11)
    assert room.run(*words) == (1, f"row 1, {card}: partly: 1 of 3 objects\n", "")
    assert file.read_bytes() == held
    room.put_in(room.names[0], 3)
    wanted = f"this is card {room.id_of(3)}, but row 1 is on {card}"
    assert room.run(*words) == refused(wanted)
    room.put_in(room.names[0], 5)
    assert f": {room.names[0]}: the card has no identifier 9F7F: " in room.run(*words)[2]
    assert room.run("--look=2", *room.readers) == refused("row 2 has not begun")
    assert room.dump() == before


def test_look_takes_the_whole_identifier(tmp_path):
    """Neither its end nor its beginning."""
    room = Room(tmp_path, 1, readers=0)
    name = f"Slot-{os.getpid()}"
    room.names = [f"A{name}", name]
    room.add_reader(f"A{name}", 11)
    assert room.run("--reader=ASlot", "--id=9F7F", "--stop-after=1")[0] == 1  # a worn card
    wanted = room.id_of(11)
    room.environment["LIES"] = "yes"
    for reader, number in ((0, 1), (1, 11)):
        for it in room.names:
            (tmp_path / it).mkdir(exist_ok=True)
            (tmp_path / it / "away").touch()
        (tmp_path / room.names[reader] / "away").unlink()
        room.put_in(room.names[reader], number)
        other = room.id_of(number, reader)
        assert wanted.startswith(other) or wanted.endswith(other)
        why = f"this is card {other}, but row 1 is on card {wanted}"
        assert room.run("--look=1", "--reader=Slot") == refused(why)


def test_look_finds_a_whole_row_and_waits_for_its_card(tmp_path):
    room = Room(tmp_path, 1)
    assert room.run()[0] == 0
    room.environment["LIES"] = "yes"
    room.put_in(room.names[0], 0)
    (tmp_path / room.names[0] / "out").touch()
    run = room.start("--look=1", *room.readers)
    assert run.stdout.readline() == f"{room.names[0]}: insert the card of row 1\n"
    time.sleep(0.5)
    (tmp_path / room.names[0] / "out").unlink()
    assert ended(run) == ("row 1, the card: done\n", "") and run.returncode == 0
    room.put_in(room.names[0], 1)
    assert room.run("--look=1", *room.readers)[1] == "row 1, the card: untouched\n"
    room.add_reader("Slot9")
    words = ("--look=1", "--reader=Slot9", *room.readers)
    assert room.run(*words) == refused("--look needs one reader")


def test_a_reason_shows_no_cell(tmp_path):
    room = Room(tmp_path, 1, card=7, PULLED="yes")
    room.write("script", "select A0000000031010\nput {code} @{name}\n")
    room.write("rows.csv", "name,code\nJANE,9F21\n")
    out = told(room.run("--stop-after=1")[1])
    text = "\n".join([*out, room.dump()])
    assert "unsure" in text and "JANE" not in text and "9F21" not in text
