"""Tests trials of any job with any card: what they leave out, keep and show. What they find is in
test_bad_jobs.py."""

import contextlib
import json
import os
import re
import signal
import socket
import subprocess
import sys
import tempfile
import threading
from collections import Counter
from pathlib import Path
from xml.etree import ElementTree

import any_cards
import pytest
from galliumtoad import Level
from galliumtoad.faults import ANYWHERE, ECHO, LINE, T0, T1, Gone
from galliumtoad.mistakes import Mistake
from galliumtoad.trials import engine, expect, main, program, progress, report
from galliumtoad.trials.any_job import AnyJob, AnyRun, card_of, chosen
from galliumtoad.trials.dialogue import Dialogue, Exchange, Step
from galliumtoad.trials.kept import Kept
from galliumtoad.trials.output import Output
from galliumtoad.trials.room import Room
from galliumtoad.trials.rows import Row, rows
from galliumtoad.trials.run import RESET, counted
from galliumtoad.trials.trial import DOES, Trial
from galliumtoad.trials.usual import Usual
from test_bad_jobs import TERMINAL, programs, tried  # noqa: F401
from test_simulate import Vpcd
from waiting import wait_until

SAFE = ["--card", "any_cards:Safe"]
JOB = ["--", *TERMINAL, "safe", ""]
COMMAND = bytes.fromhex


@pytest.mark.parametrize(
    ("expected", "has_struck", "is_true", "is_changed", "is_twice", "verdicts"),
    [  # with the exit statuses 0 and 1
        ("reports it", True, True, False, False, ("wrong", "told")),
        ("reports it", True, False, False, False, ("wrong", "told")),
        ("reports it", True, False, True, False, ("wrong", "told")),
        ("reports it", True, True, False, True, ("twice", "twice")),
        ("reports it", False, True, False, False, ("unmet", "unmet")),
        ("reports it", False, False, False, False, ("wrong", "unmet")),
        ("may pass", True, True, False, False, ("passed", "told")),
        ("may pass", True, False, False, False, ("wrong", "told")),
        ("may pass", True, False, True, False, ("changed", "told")),
        ("may pass", True, False, True, True, ("twice", "twice")),
        ("may pass", True, False, False, True, ("wrong", "twice")),
        ("succeeds", True, True, False, False, ("right", "failed")),
        ("succeeds", True, False, False, False, ("wrong", "failed")),
        ("succeeds or reports it", True, True, False, False, ("right", "told")),
    ],
)
def test_verdicts(expected, has_struck, is_true, is_changed, is_twice, verdicts):
    it = Trial("a", "command 1, mute", expected, "b", has_struck=has_struck, is_true=is_true,
               is_changed=is_changed, is_twice=is_twice)
    for it.status, verdict in zip((0, 1), verdicts):
        assert it.judged() == verdict
    for it.status, verdict in [(None, "hung"), (-11, "crashed"), (139, "crashed"),
                               (255, verdicts[1])]:
        assert it.judged() == verdict


VERIFY = COMMAND("002000800431323334")
DEBIT = COMMAND("8040000A00")
OTHER = COMMAND("8040000B00")
SELECT = COMMAND("00A4040000")


@pytest.mark.parametrize(
    ("commands", "found"),
    [([VERIFY, VERIFY], {VERIFY[:4] + VERIFY[5:]: 2}),
     ([DEBIT, OTHER], {DEBIT[:4]: 1, OTHER[:4]: 1}),
     ([DEBIT, RESET, DEBIT], {DEBIT[:4]: 1}), ([DEBIT, SELECT, DEBIT], {DEBIT[:4]: 1}),
     ([DEBIT, OTHER, DEBIT, SELECT, DEBIT], {DEBIT[:4]: 2, OTHER[:4]: 1}),
     ([COMMAND(it) for it in ("00B0000010", "0CCA006600", "00C0000010", "0084000008", "80CA9F1700",
                              "A0F2000010", "80F24000024F00", "A0B0000001")] * 2, {}),
     ([COMMAND("80B0000010")] * 2, {COMMAND("80B00000"): 2}),
     ([COMMAND("A0CA000001")] * 2, {COMMAND("A0CA0000"): 2}),
     ([COMMAND("90CA000001")] * 2, {COMMAND("90CA0000"): 2})],
)
def test_how_often_a_card_carried_out_a_command(commands, found):
    """Those that only read do not count, by their class."""
    assert counted(commands) == Counter(found)


@pytest.mark.parametrize(
    ("first", "second", "output", "difference"),
    [("a\nb\n", "a\nb\n", "a\nb", ""), ("a\nb", "a\nb", "a\nc", "line 2 is 'c', not 'b'"),
     ("a\nb", "a\nb", "a", "1 lines of output, not 2"),
     ("a", "a", "a\nb", "2 lines of output, not 1"), ("a", "a", "ab", "line 1 is 'ab', not 'a'"),
     ("at 12:30 DOE", "at 12:31 DOE", "at 12:59 DOE", ""),
     ("at 12:30 DOE", "at 12:31 DOE", "at 12:59 ROE",
      "line 1 is 'at 12:59 ROE', not 'at 12:30 DOE'"),
     ("at 12:30 DOE", "at 12:31 DOE", "at 13:30 DOE",
      "line 1 is 'at 13:30 DOE', not 'at 12:30 DOE'"),
     ("x\nDOE", "x y\nDOE", "anything\nDOE", ""), ("x\nDOE", "x y\nDOE", "x\nROE", "line 2 is"),
     ("a.b", "a.b", "axb", "line 1 is 'axb'"), ("a-b", "a+b", "a*b", ""),
     # any number of lines in the place of some
     ("a\nw\nw\nb", "a\nb", "z\na\nb", "lines are"),
     ("a\nw\nw\nb", "a\nb", "a\nb\nz", "lines are"),
     ("a\nw\na\nx\ny\na", "a\na\na", "a\nz\na", "lines are"),
     ("a\nwait\nwait\nb", "a\nb", "a\nwait\nb", ""),
     ("a\nwait\nwait\nb", "a\nb", "a\nc", "lines are"),
     ("a\nwait\nwait\nb", "a\nb", "c\nwait\nb", "lines are"), ("a\nw\nb", "a\nb", "b", "lines are"),
     ("a\nw\na", "a\na", "a", "lines are"), ("a\nw\nb\nw\nw\nc", "a\nb\nc", "a\n1\n2\nb\nc", ""),
     ("a\nw\nb\nw\nw\nc", "a\nb\nc", "a\n1\n2\nc", "lines are")],
)
def test_outputs(first, second, output, difference):
    """Words that differ between two runs without a fault are left out, and nothing else."""
    it = Output(first, second)
    found = it.difference(output)
    assert found == difference or difference and found.startswith(difference)
    assert not it.difference(first) and not it.difference(second)
    assert bool(it.left_out) == (first != second)


def step(command, *answers):
    return Step(3, "A", COMMAND(command), [COMMAND(it) for it in answers])


CASE_1 = step("8040000A00", "9000")
CASE_2 = step("00B0000003", "0102039000")
CASE_3 = step("00200080021234", "9000")
CASE_4 = step("00A40400023F00", "6103", "6F01009000")
NO_FILE = step("00A40400023F00", "6A82")


@pytest.mark.parametrize(
    ("words", "steps"),
    [("cut 1", [CASE_2, CASE_4]), ("flip 8", [CASE_2, CASE_4]), ("status 63C2", [CASE_3]),
     ("status 6283", [CASE_4, NO_FILE]), ("status 6281", [CASE_2, CASE_4]),
     ("early status", [CASE_3, CASE_4, NO_FILE]),
     ("complement", [CASE_2, CASE_3, CASE_4, NO_FILE]),
     ("twice", [CASE_1, CASE_3, CASE_4, NO_FILE]),
     ("refuse 6A82", [CASE_1, CASE_2, CASE_3, CASE_4]),
     ("procedure 33", [CASE_1, CASE_2, CASE_3, CASE_4, NO_FILE])],
)
def test_where_a_fault_can_strike(words, steps):
    row = next(it for it in rows() if it.words == words)
    every = [CASE_1, CASE_2, CASE_3, CASE_4, NO_FILE]
    assert [it for it in every if row.is_for(it)] == steps


def test_the_list_of_faults():
    assert len(rows()) == len({it.words for it in rows()}) == 40
    for it in rows():
        assert it.clause.endswith(".") and it.expected.startswith(tuple(DOES))
        assert isinstance(it.is_meant(CASE_4), bool)  # its condition is known
    [row] = [it for it in rows() if it.words == "procedure 33"]
    assert not row.is_for(step("00330000021234", "9000"))  # it is INS itself


def test_the_trial_of_a_fault():
    """A status is the last one, and an error in place of an error may pass."""
    made = {it.words: it for it in rows()}
    it = made["status 6281"].trial(CASE_4)
    assert (it.name, it.faults) == ("command 3 status 6281", "command 3 part 2, status 6281")
    assert made["status 6281"].trial(CASE_2).faults == "command 3, status 6281"
    assert made["refuse 6F00"].trial(CASE_4).faults == "command 3, refuse 6F00"
    assert made["refuse 6F00"].trial(CASE_4).expected == "reports it"
    assert made["refuse 6F00"].trial(NO_FILE).expected.startswith("may pass, as 6A82 does")
    assert made["mute"].trial(NO_FILE).expected.startswith("reports it")


def test_which_are_chosen():
    every = [Trial(f"command {it} mute", "", "reports", "", title="READ" if it > 5 else "VERIFY")
             for it in range(1, 10)]
    assert chosen(every, "", None, 0) == chosen(every, "", 9, 0) == every
    assert chosen(every, "command 7", None, 0) == [every[6]]
    assert chosen(every, "READ", None, 0) == every[5:]
    for seed in range(9):
        some = chosen(every, "", 4, seed)
        assert some == [it for it in every if it in some] and len(some) == 4  # in their order
        assert some == chosen(every, "", 4, seed)
    assert len({tuple(it.name for it in chosen(every, "", 4, seed)) for seed in range(9)}) > 3
    with pytest.raises(Mistake, match="no trial that can happen there has 'x' in its name"):
        chosen(every, "x", None, 0)


def test_own_verdicts(tmp_path):
    made = [Trial(f"command {it} {what}", "", "reports it", "") for it in (1, 2)
            for what in ("mute", "status 6983", "flip 8")]
    lines = ["# ours", "", "at command 2  STATUS 6983: may pass",
             "at command 1 flip 8:changed, hung"]
    (tmp_path / "ours").write_text("\n".join(lines))
    expect.accept(str(tmp_path / "ours"), made)
    changed = [it for it in made if it.accepted or it.expected != "reports it"]
    assert [it.name for it in changed] == ["command 1 flip 8", "command 2 status 6983"]
    assert (changed[0].accepted, changed[0].expected) == (["changed", "hung"], "reports it")
    assert changed[1].allowed == ["passed", "told"] and not changed[1].accepted
    for changed[0].verdict, is_bad in [("changed", False), ("hung", False), ("wrong", True),
                                       ("told", False)]:
        assert changed[0].is_bad == is_bad


@pytest.mark.parametrize("line", ["at command 1 mute", "command 1 mute: may pass",
                                  "at command 3 mute: hung", "at command 1 mute: told me",
                                  "at command 1 mute: right", "at command 0 mute: hung",
                                  "at command 1 deaf: hung"])
def test_own_verdicts_that_are_wrong(tmp_path, line):
    """A typo is no verdict, nor is a second one."""
    (tmp_path / "ours").write_text(f"at command 1 status 6983: may pass\n{line}\n")
    made = [Trial(f"command 1 {it}", "", "reports", "") for it in ("mute", "status 6983")]
    with pytest.raises(Mistake, match=f"^{tmp_path}/ours: line 2: no"):
        expect.accept(str(tmp_path / "ours"), made)
    (tmp_path / "ours").write_text("at command 1 mute: hung\nat command 1 mute: wrong\n")
    with pytest.raises(Mistake, match="line 2: no trial 'command 1 mute', or named before"):
        expect.accept(str(tmp_path / "ours"), made)


def test_with_own_verdicts(tmp_path, capsys):
    """A run is green exactly if nothing got worse."""
    ours = tmp_path / "ours"
    words = ["--expect", str(ours), "--only", "command 2 status 63"]
    ours.write_text("at command 2 status 63C2: may pass\n")
    status, found = tried(tmp_path, "safe", "a wrong PIN taken", *words)
    assert (status, found["command 2 status 63C2"], found["command 2 status 6300"]) == (
        1, "passed", "wrong")
    ours.write_text("at command 2 status 63C2: may pass\nat command 2 status 6300: wrong\n")
    assert tried(tmp_path, "safe", "a wrong PIN taken", *words)[0] == 0
    assert tried(tmp_path, "safe", "", *words)[0] == 0  # it got better
    ours.write_text("at command 2 status 6399: wrong\n")
    assert main([*SAFE, *words, *JOB]) == 2
    assert "line 1: no trial 'command 2 status 6399'" in capsys.readouterr().err


def names_of(text):
    return re.findall(r"^\w+ +(command \d+ .+)$", text, re.M)


def test_what_differs_between_two_runs(tmp_path, capsys, monkeypatch):
    """The number on the card, but not the HOME, which is one of its own and empty, nor the line."""
    (tmp_path / "rooms").mkdir()
    monkeypatch.setattr(tempfile, "tempdir", str(tmp_path / "rooms"))
    monkeypatch.setenv("GNUPGHOME", str(tmp_path))
    status, found = tried(tmp_path, "nonce", "", "--only", "command 2 status 6200")
    assert (status, set(found.values())) == (0, {"right", "told"})
    shown = capsys.readouterr().out
    assert re.search("2 commands; two runs differ, so left out: output 'it is .{8}', 'it is .{8}'; "
                     "the response to 00840000;", shown)
    assert "left out: output 'it is" in shown and "{tmp}" not in shown
    assert "; said: GnuPG is at None\n" in shown
    assert not list((tmp_path / "rooms").iterdir())


def test_what_stands_for_names_of_a_run():
    with Room({"reader": "R"}, False) as room:
        room.names["tty"] = "/dev/pts/1"
        said = f"{room.tmp}/a {room.tmp}b /dev/pts/1: /dev/pts/12"
        assert room.plain(said) == f"{{tmp}}/a {room.tmp}b {{tty}}: /dev/pts/12"
        assert room.filled(["{tty}{reader}", "{other}{}"]) == ["/dev/pts/1R", "{other}{}"]
    assert not os.path.exists(room.tmp)


def children():
    """The processes that this one has started."""
    return [it for path in Path("/proc/self/task").glob("*/children")
            for it in path.read_text().split()]


def test_a_run_leaves_nothing(tmp_path):
    """No process, no thread, no open file."""
    before = children(), len(os.listdir("/proc/self/fd"))
    assert main([*SAFE, "--only", "command 2 status 63", *JOB]) == 0
    assert (children(), len(os.listdir("/proc/self/fd"))) == before
    assert not [it for it in threading.enumerate() if isinstance(it, engine.Service)]


def test_a_card_that_can_not_be_served(monkeypatch, capsys):
    """It is no terminal's fault, and nothing waits for it."""
    def fails(*_, **__):
        raise OSError("out of pty devices")
    monkeypatch.setattr(engine, "serve_pty", fails)
    monkeypatch.setattr(engine, "AWAIT_READER", 20)
    assert main([*SAFE, "--", "sleep", "1000", "{tty}"]) == 2
    assert capsys.readouterr().err == "out of pty devices\n"


def test_progress(monkeypatch, capsys):
    monkeypatch.setattr(progress, "EVERY", 0.0)
    assert main([*SAFE, "--only", "command 2 status 63", *JOB]) == 0
    assert capsys.readouterr().err == "1 of 2 trials, 1 minute left\n"


def talk(*exchanges):
    """A dialogue of these exchanges."""
    it = Dialogue()
    for number, command, answer in exchanges:
        it.take(Exchange(number, COMMAND(command), COMMAND(answer)))
    return it


FILE = [(1, "00A40000023F00", "6103"), (1, "00C0000003", "6F01009000"), (2, "00B0000000", "6C02"),
        (2, "00B0000002", "AABB9000"), (3, "8040000A", "")]


def test_a_dialogue():
    it = talk(*FILE)
    assert it.responses() == [(COMMAND("00A400003F00"), COMMAND("6F0100")),
                              (COMMAND("00B00000"), COMMAND("AABB")), (COMMAND("8040000A"), b"")]
    assert [(at.number, at.title, len(at.answers), at.data.hex(), at.has_data)
            for at in it.steps()] == [(1, "SELECT", 2, "6f0100", True),
                                        (2, "READ BINARY", 2, "aabb", False),
                                        (3, "INS 40", 1, "", False)]
    assert [at.status.hex() for at in it.steps()] == ["9000", "9000", ""]
    assert not step("002000800112", "9000").has_data  # of two bytes or more
    assert it.lines[-3:] == ["> 00B0000002", "< AABB9000", "> 8040000A"]
    for _ in range(2):
        it.reset()
    assert it.lines[-2:] == ["> 8040000A", "reset"]
    assert "\n#2 GET RESPONSE" in it.text() and "summary" not in it.text()


CHOOSE = "00A4040005A000000003"
PAY = "8040000A00"
ASK = "8050000001"


def ran(card, faults, commands, usual=None, protocol=1):
    """A run that got these whole commands, or TPDUs at T=0."""
    it = AnyRun(Trial("a", faults, "may pass", "b"), card, protocol, usual)
    it.level = Level.APDU if protocol else Level.TPDU
    it.reset()
    for command in commands:
        with contextlib.suppress(Gone):
            it.whole(COMMAND(command))
    return it


def test_what_a_card_has_carried_out():
    """Each command once, with the resets: also at T=0 after 6CXX, and with a fault that does it
    twice, but not one that the card did not get."""
    select, paid, told = map(COMMAND, (CHOOSE, PAY, "8050000000"))
    for faults, protocol, commands, expected in [
            ("", 1, [CHOOSE, PAY, ASK], [RESET, select, paid, told]),
            ("", 0, [CHOOSE, PAY, "8050000000", ASK], [RESET, select, paid, told]),
            ("command 2, twice", 1, [CHOOSE, PAY, ASK], [RESET, select, paid, told]),
            ("command 2, reset", 1, [CHOOSE, PAY], [RESET, select, RESET, paid]),
            ("command 2, refuse 6F00", 1, [CHOOSE, PAY, PAY], [RESET, select, paid]),
            ("command 2, status 6F00", 1, [CHOOSE, PAY, PAY], [RESET, select, paid, paid]),
            ("command 2, mute", 1, [CHOOSE, PAY, PAY], [RESET, select, paid])]:
        it = ran(any_cards.Purse(), faults, commands, protocol=protocol)
        assert it.commands == expected and it.dialogue.lines[0] == "reset"
    it = ran(any_cards.Purse(), "command 2, reset", [CHOOSE, PAY])
    assert it.dialogue.exchanges[-1].answer.hex() == "6985"  # nothing is selected


def test_what_a_fault_has_changed():
    """Data, or a status, if the output names it."""
    first = ran(any_cards.Purse(), "", [CHOOSE, PAY, ASK])
    usual = Usual(("90 of 6281",) * 2, (first.dialogue, first.dialogue),
                  (first.commands, first.commands))
    for faults, output, is_true, is_changed in [
            ("command 3, forget", "", False, True), ("command 3, add 00", "", False, True),
            ("command 3, add 00", "90 of 6281", True, True), ("command 2, forget", "", False, True),
            ("command 2, twice", "80", False, True), ("command 2, delay 0s", "", False, False),
            ("command 2, status 6200", "", False, False),
            ("command 2, status 6281", "no more than usual: 6281", False, False),
            ("command 2, status 6200", "SW1=0x62, SW2=0x00", False, True),
            ("command 2, status 6200", "62 is not the whole of the status, but 00", False, False),
            ("command 1, reset", "9000 90 00", False, False)]:
        it = ran(any_cards.Purse(), faults, [CHOOSE, PAY, ASK], usual)
        it.judge(0, output)
        assert (it.trial.is_true, it.trial.is_changed, it.trial.is_twice) == (
            is_true, is_changed, False)
    it = ran(any_cards.Purse(), "command 2, status 6F00", [CHOOSE, PAY, PAY, ASK], usual)
    it.judge(1, "")
    assert it.trial.is_twice and it.trial.verdict == "twice"
    assert it.trial.happened == "exit status 1; other output"
    it.judge(0, "")
    assert it.trial.happened == "exit status 0; 0 lines of output, not 1"


def test_the_answer_to_reset_of_a_card():
    card = any_cards.Purse()
    assert [ran(any_cards.Purse(), "", [], protocol=it).atr.hex() for it in (0, 1)] == [
        "3b00", "3b800181"]
    card.atr = bytes.fromhex("3B80800101")
    assert ran(card, "", []).atr == card.atr


def test_a_long_dialogue():
    """Its middle is left out, as of a response without an end."""
    it = talk(*((1, "00C0000010", "AA6110") for _ in range(2000)))
    lines = it.text().splitlines()
    assert len(lines) == 301 and re.fullmatch(r"\.\. [1-9]\d{3} lines", lines[150])
    assert lines[0].startswith("#1 ") and "#2000 GET RESPONSE" in it.text()
    assert len(talk(*((1, "00C0000010", "AA9000") for _ in range(75))).text().splitlines()) == 300


def usual_of(one, other, commands=((), ())):
    return Usual(("a", "a"), (talk(*one), talk(*other)), commands)


def test_what_is_usual():
    it = usual_of(FILE, FILE)
    assert not it.left_out and [step.number for step in it.steps] == [1, 2, 3]
    for other, has_other in [(FILE, False), (FILE[:1], False),
                             ([(1, "00B0000000", "AA9000")], False),
                             ([(1, "00B0000000", "AABC9000")], True),
                             ([(1, "00B1000000", "9000")], False)]:
        assert it.has_other_data(talk(*other)) == has_other
    # a response that differs is no news, and the commands end where they differ
    other = [*FILE[:2], (2, "00B0000000", "AACC9000"), (3, "8041000A", "")]
    it = usual_of(FILE, other)
    assert it.left_out == ["command 3 8040000A, 8041000A", "the response to 00B00000"]
    assert not it.has_other_data(talk((1, "00B0000000", "009000")))
    assert [step.number for step in it.steps] == [1, 2]
    assert usual_of(FILE, FILE[:2]).left_out[0] == "commands after 1"


@pytest.mark.parametrize(
    ("is_line", "is_t1", "places"),
    [(False, False, {ANYWHERE}), (False, True, {ANYWHERE}), (True, True, {ANYWHERE, T1}),
     (True, False, {ANYWHERE, LINE, T0, ECHO})],
)
def test_the_faults_of_a_job(is_line, is_t1, places):
    """Those that can happen where the terminal is."""
    job = AnyJob("any_cards:Safe", is_line, 0)
    job.usual = usual_of(FILE, FILE)
    job.is_t1 = is_t1
    found = job.trials()
    assert {it.place for trial in found for it in trial.read()} == places
    assert len(found) == len({it.name for it in found})
    assert {it.command for it in found} == {1, 2, 3}


def test_what_was_carried_out_too_often():
    it = usual_of(FILE, FILE, ([DEBIT], [DEBIT, DEBIT, OTHER]))
    assert not it.is_exceeded([DEBIT, DEBIT, OTHER, VERIFY])
    for again in ([DEBIT] * 3, [OTHER] * 2, [VERIFY] * 2):
        assert it.is_exceeded(again)


def test_what_results_are_kept_of(tmp_path, monkeypatch):
    """Of the same files, words and commands alone."""
    terminal, capture, module = (tmp_path / it for it in ("terminal", "capture", "own_card.py"))
    monkeypatch.syspath_prepend(tmp_path)
    module.write_text("from any_cards import Safe\nclass Own(Safe):\n    pass\n")
    capture.write_text("> 8040000A00\n< 9000\n")
    terminal.write_text("one")

    def made(card, *words):
        given = program.parser().parse_args(["--card", card, *words, "--", str(terminal), "{tty}"])
        job = program.job_of(given, program.terminal_of(given))
        job.usual = usual_of(FILE, FILE)
        return program.identity(given, job)

    assert made(str(capture)) == made(str(capture)) != made(str(capture), "--limit", "9")
    before = made(str(capture)), made("own_card:Own")
    terminal.write_text("two")
    after = made(str(capture)), made("own_card:Own")
    assert before[0] != after[0] and before[1] != after[1]
    capture.write_text("> 8040000B00\n< 9000\n")
    module.write_text(module.read_text() + "# changed\n")
    assert made(str(capture)) != after[0] and made("own_card:Own") != after[1]
    assert made(str(capture))["commands"] == ["00a40000", "00b00000", "8040000a"]


def test_a_capture_as_a_card(tmp_path, capsys):
    """The card sends what it did in the capture, so the terminal prints another name."""
    capture = tmp_path / "capture"
    lines = ["00A4040005", "A4", "A000000003", "9000", "0020008004", "20", "31323334", "9000",
             "00B0000006", "B05F2003414E4E9000"]
    capture.write_text("".join(f"{'><'[at % 2]} {it}\n" for at, it in enumerate(lines)))
    words = ["--card", str(capture), "--only", "command 3 status", "--most", "3"]
    assert main([*words, *JOB]) == 0
    shown = capsys.readouterr().out
    assert "; said: ANN\n" in shown and len(names_of(shown)) == 3
    assert "at command 3, READ BINARY, 0 of 3 faults pass silently: 3 told\n" in shown
    assert main([*words, *JOB[:-1], "any name printed"]) == 0
    assert names_of(capsys.readouterr().out) == names_of(shown)
    capture.write_text("> 00\n")
    assert main([*words, *JOB]) == 2


def test_a_capture_that_is_left_out_in_part(tmp_path, capsys):
    wrong = {"type": "error", "line": 7, "text": "unexpected byte"}
    header = dict.fromkeys(("cla", "ins", "p1", "p2", "p3"), "80")
    tpdu = {**header, "line": 1, "sent": "", "received": "", "status": "9000"}
    lines = [json.dumps(it, separators=(",", ":")) for it in (
        {"type": "command", "tpdus": [tpdu]}, wrong)]
    (tmp_path / "capture").write_text("\n".join(lines))
    card = card_of(str(tmp_path / "capture"))
    said = f"{tmp_path}/capture: line 7: unexpected byte: left out\n"
    assert capsys.readouterr().err == said
    assert AnyJob(card, True, 0).new_card() is not card  # which keeps its place


def test_files_of_results(tmp_path, capsys):
    """By command, with the dialogue and a mark at the fault."""
    page = tmp_path / "page"
    junit = tmp_path / "junit"
    words = ["--html", str(page), "--junit", str(junit), "--only", "command 2 status 63"]
    assert tried(tmp_path, "safe", "a wrong PIN taken", *words)[0] == 1
    line = "at command 2, VERIFY, 2 of 2 faults pass silently: 2 wrong"
    shown = capsys.readouterr().out
    assert f"\n{line}\n1 right, 2 wrong\n" in shown and "at command 0" not in shown
    text = page.read_text()
    assert f"<h2>{line}</h2>" in text and text.count("<tr class=\"wrong\">") == 2
    assert text.count("<mark>fault: command 2, status 63C2</mark>\n#2 VERIFY") == 1
    assert "&lt; status     63C2 a warning: 2 tries are left\n" in text
    suite = ElementTree.parse(junit).getroot()
    assert (suite.get("tests"), suite.get("failures")) == ("3", "2")
    cases = [(it.get("classname"), it.get("name"), [part.get("type") for part in it])
             for it in suite]
    assert cases == [("trials", "no fault", [None]),
                     ("command 2, VERIFY", "command 2 status 63C2", ["wrong"]),
                     ("command 2, VERIFY", "command 2 status 6300", ["wrong"])]
    [first, _] = [it for it in json.loads((tmp_path / "made.json").read_text()) if it["command"]]
    assert (first["is_true"], first["is_changed"], first["is_twice"]) == (True, False, False)


def test_what_reports_count():
    """A fault passes silently if the output is the same, whether that is good or bad. A verdict
    that a team expects is not bad."""
    def made(name, number, verdict, is_true, *accepted):
        return Trial(name, "command 1, mute", "reports", "A rule.", command=number, title="READ",
                     verdict=verdict, is_true=is_true, accepted=list(accepted), status=0)
    results = [made("no fault", 0, "right", True), made("command 1 a", 1, "passed", True),
               made("command 1 b", 1, "wrong", True), made("command 1 c", 1, "wrong", False),
               made("command 1 d", 1, "told", False),
               made("command 2 e", 2, "changed", False, "changed")]
    assert report.summary(results).splitlines() == [
        "at command 1, READ, 2 of 4 faults pass silently: 1 passed, 1 told, 2 wrong",
        "at command 2, READ, 0 of 1 faults pass silently: 1 changed",
        "1 right, 1 passed, 1 told, 1 changed, 2 wrong"]
    page = report.as_html(results)
    assert page.count('<tr class="wrong">') == 2 and page.count('<tr class="">') == 4
    assert page.count("<td>command 1 a<td>") == page.count("<td>no fault<td>") == 1
    assert "<details>" not in page
    suite = ElementTree.fromstring(report.as_junit(results))
    assert (suite.get("tests"), suite.get("failures"), suite.get("skipped")) == ("6", "2", "0")
    missed = Trial("a", "command 1, mute", "reports", "b", may_miss=True, status=0)
    assert ElementTree.fromstring(report.as_junit([missed])).get("skipped") == "1"


def test_without_trace_explain(tmp_path, monkeypatch, capsys):
    """The page then has the bytes."""
    monkeypatch.setenv("PATH", "/usr/bin:/bin")
    page = tmp_path / "page"
    assert main([*SAFE, "--html", str(page), "--only", "command 2 status 63C2", *JOB]) == 0
    assert "at command 2, INS 20, 0 of 1 faults pass silently: 1 told\n" in capsys.readouterr().out
    assert "<mark>fault: command 2, status 63C2</mark>\n&gt; 002000800431323334\n&lt; 63C2" in (
        page.read_text())


def test_an_explanation_that_fails(tmp_path, monkeypatch):
    """Then the page has the bytes, not a part of the text."""
    (tmp_path / "trace_explain").write_text("#!/bin/sh\necho '#1 SELECT'\nexit 1\n")
    (tmp_path / "trace_explain").chmod(0o700)
    monkeypatch.setenv("PATH", str(tmp_path))
    assert talk(*FILE).text() == "\n".join(talk(*FILE).lines)


AROUND = "sh -c 'echo {} >> \"$1\"; test ! -e {{tmp}}/{}; touch {{tmp}}/{}; ls $HOME/../home' sh {}"


def test_commands_around_a_run(tmp_path, capsys):
    made = tmp_path / "made"
    words = [*SAFE, "--only", "command 1 refuse 6A82"]
    around = [f"--{it}={AROUND.format(it, it, it, made)}" for it in ("before", "after")]
    assert main([*words, *around, *JOB]) == 0
    assert made.read_text() == "before\nafter\n" * 3
    capsys.readouterr()
    fails = "sh -c 'echo so; exit 3'"
    for option in ("--before", "--after"):
        assert main([*words, option, fails, *JOB]) == 2
        assert capsys.readouterr().err == f"{option} {fails}: it ended with 3: so\n"
    assert main([*words, "--limit", "1", "--before", "sleep 9", *JOB]) == 2
    assert "--before sleep 9: it did not end" in capsys.readouterr().err


def test_the_command_after_a_run_that_fails(tmp_path):
    """Also after one, since it may have left something."""
    made = tmp_path / "made"
    words = [*SAFE, "--after", f"touch {made}", "--", "/none/at/all", "{tty}"]
    assert main(words) == 2 and made.exists()


def test_results_that_are_kept(tmp_path, capsys, monkeypatch):
    """A run that is interrupted continues where it was, and at its end the file goes."""
    kept = tmp_path / "kept"
    home = tmp_path / "home"
    home.mkdir()
    words = [sys.executable, "-m", "galliumtoad.trials", *SAFE, "--keep", str(kept), "--only",
             "command 2 status", *JOB]
    paths = {**os.environ, "PYTHONPATH": os.pathsep.join(sys.path), "TMPDIR": str(home)}
    run = subprocess.Popen(words, stdout=subprocess.PIPE, stderr=subprocess.PIPE, text=True,
                           env=paths, cwd=tmp_path, preexec_fn=lambda: signal.signal(
                               signal.SIGINT, signal.default_int_handler))
    wait_until(lambda: kept.exists() and kept.read_bytes().count(b"\n") >= 3)
    run.send_signal(signal.SIGINT)
    assert run.communicate(timeout=60)[1] == "interrupted\n" and run.returncode == 2
    assert not list(home.iterdir())
    before = kept.read_bytes()
    kept.write_bytes(before + b'{"faults": "command 2, ')  # as a power loss leaves it
    done = [json.loads(it)["faults"] for it in before.splitlines()[1:]]
    ran = []
    original = Kept.add
    monkeypatch.setattr(Kept, "add", lambda self, it: (ran.append(it.faults), original(self, it)))
    assert main([*SAFE, "--keep", str(kept), "--only", "command 2 status", *JOB]) == 0
    names = names_of(capsys.readouterr().out)
    assert len(done) >= 2 and len(names) == len(done) + len(ran) == 6
    assert not set(done) & set(ran)
    assert not kept.exists()


def test_results_that_were_kept_of_something_else(tmp_path, capsys):
    kept = tmp_path / "kept"
    ours = tmp_path / "ours"
    ours.write_text("nonsense")
    words = [*SAFE, "--keep", str(kept), "--only", "command 1 status 6200"]
    options = ["--json", str(tmp_path)]  # a folder: the run ends before it begins
    assert main([*words, *options, *JOB]) == 2 and not kept.exists()
    kept.write_text("{}\n")
    assert main([*words, *JOB]) == 2
    assert "results of another job, terminal or card" in capsys.readouterr().err
    for text in ("{\n", "[]\n[]\n", "7\n7\n"):
        kept.write_text(text)
        assert main([*words, *JOB]) == 2 and f"--keep {kept}: " in capsys.readouterr().err
        assert kept.read_text() == text
    os.unlink(kept)
    first = Kept(str(kept))
    assert main([*words, *JOB]) == 2 and f"--keep {kept}: " in capsys.readouterr().err
    first.remove()


def test_kept_results_are_judged_again(tmp_path):
    """By the verdicts that a team has now."""
    path = str(tmp_path / "kept")
    first = Kept(path)
    first.begin({"job": 1})
    trial = Trial("a", "command 1, mute", "reports", "b", status=0, has_struck=True, is_true=True)
    first.add(trial)
    first.file.close()
    for expected, verdict in [("reports", "wrong"), ("may pass", "passed")]:
        again = Kept(path)
        again.begin({"job": 1})
        it = Trial("a", "command 1, mute", expected, "b")
        assert again.has(it) and it.verdict == verdict
        assert not again.has(Trial("a", "command 2, mute", expected, "b"))
        again.file.close()


# A terminal that sends whole commands to a reader, at the port of this name. Its second word is the
# statuses that it takes for success.
OVER_A_READER = """
import re, socket, sys
line = socket.create_connection(("localhost", int(sys.argv[1]))).makefile("rw")
for command in ("00A4040005A000000003", "002000800431323334", "00B0000006"):
    print(command, file=line, flush=True)
    answer = line.readline().strip() or sys.exit("no answer")
    if not re.fullmatch(sys.argv[2], answer[-4:]):
        sys.exit(answer)
print(bytes.fromhex(answer[6:-4]).decode("latin-1"))
"""


class Reader(Vpcd):
    """vpcd with pcscd, and a terminal that reaches it by a socket."""

    def __init__(self):
        self.server, self.desk = (socket.create_server(("localhost", 0)) for _ in range(2))
        self.address = f"localhost:{self.server.getsockname()[1]}"
        self.name = str(self.desk.getsockname()[1])
        threading.Thread(target=self.serve, daemon=True).start()

    def serve(self):
        while True:
            self.accept()
            self.say(b"\x01")  # power on
            assert [self.ask(b"\x04").hex() for _ in range(2)] == ["3b00"] * 2
            terminal = self.desk.accept()[0].makefile("rw")
            for command in terminal:
                if (answer := self.ask(bytes.fromhex(command))) is None:
                    break
                print(answer.hex().upper(), file=terminal, flush=True)
            terminal.close()
            self.receive(1)  # until the card goes


@pytest.mark.parametrize(
    ("takes", "wrong"), [("9000", []), ("9000|63..", ["63C2", "6300"]), ("9000|6[39].*",
                                                                      ["6983", "63C2", "6300"])])
def test_over_a_reader(tmp_path, monkeypatch, takes, wrong):
    """Whole commands alone have faults there."""
    monkeypatch.setattr(engine, "GONE_AFTER", 0.1)
    reader = Reader()
    made = tmp_path / "made"
    words = [*SAFE, "--vpcd", reader.address, "--reader", reader.name, "--json", str(made)]
    job = [sys.executable, "-IS", "-c", OVER_A_READER, "{reader}", takes]
    assert main([*words, "--only", "command 2 status", "--", *job]) == bool(wrong)
    found = {it["name"][-4:]: it["verdict"] for it in json.loads(made.read_text())[1:]}
    assert found == {it: "wrong" if it in wrong else "told"
                     for it in ("6F00", "6983", "63C2", "6300", "6200", "9001")}
    assert main([*words, "--only", "echo", "--", *job]) == 2  # needs a line


# A terminal at T=1, which may be one that does not ask for a lost block.
IN_BLOCKS = """
import os, select, sys
from galliumtoad import T1
line = os.open(sys.argv[1], os.O_RDWR | os.O_NOCTTY)
def read(count):
    found = b""
    while len(found) < count and select.select([line], [], [], 12)[0]:
        found += os.read(line, count - len(found))
    return found
def pass_block(sent, waits):
    for byte in sent:
        os.write(line, bytes([byte]))
        read(1)
    front = read(3)
    return front + read(front[2] + 1) if front else sys.argv[2] and sys.exit("silence") or b""
assert read(4) == bytes.fromhex("3B800181")
blocks = T1(pass_block)
for command in ("00A4040005A000000003", "002000800431323334", "00B0000006"):
    answer = blocks(bytes.fromhex(command))
    if answer[-2:].hex() != "9000":
        sys.exit(answer.hex())
print(answer[3:-2].decode("latin-1"))
"""


@pytest.mark.parametrize(("mistake", "verdict"), [("", "right"), ("deaf", "failed")])
def test_at_t1(tmp_path, monkeypatch, mistake, verdict):
    """A lost block is sent again, and the card has carried out no command again."""
    monkeypatch.setenv("PYTHONPATH", os.pathsep.join(sys.path))
    made = tmp_path / "made"
    words = [*SAFE, "--protocol", "1", "--json", str(made), "--only", "command 2 l"]
    job = [sys.executable, "-c", IN_BLOCKS, "{tty}", mistake]
    assert main([*words, "--", *job]) == (verdict == "failed")
    found = {it["name"]: it["verdict"] for it in json.loads(made.read_text())}
    assert found == {"no fault": "right", "command 2 lrc": "right", "command 2 lose": verdict}


def test_half_a_line_of_kept_results(tmp_path):
    """What follows one that was cut off is whole again."""
    path = tmp_path / "kept"
    for number in range(1, 4):
        it = Kept(str(path))
        it.begin({"job": 1})
        made = [Trial("a", f"command {at}, mute", "reports", "b", status=1) for at in range(1, 5)]
        assert [it.has(trial) for trial in made] == [at < number for at in range(1, 5)]
        it.add(made[number - 1])
        it.file.close()
        with open(path, "ab") as file:
            file.write(b'{"faults": "command')


@pytest.mark.parametrize("line", ["7", "{}", "[]", '{"faults": "command 1, mute"}', "nonsense"])
def test_a_wrong_line_of_kept_results(tmp_path, line):
    path = tmp_path / "kept"
    path.write_text(f'{{"job": 1}}\n{line}\n')
    it = Kept(str(path))
    with pytest.raises(Mistake, match=f"^--keep {path}: no results of trials: "):
        it.begin({"job": 1})
    it.file.close()


def test_an_error_of_the_card_is_no_verdict(capsys):
    """It ends the run."""
    words = ["--card", "any_cards:Broken", "--limit", "5"]
    assert main([*words, "--", *TERMINAL, "safe", "exit 0 always"]) == 2
    assert "any_cards:Broken.carry_out: the card's database is locked" in capsys.readouterr().err


@pytest.mark.parametrize(
    ("words", "said"),
    [(["--card", "none:Safe", "--", "{tty}"], "none:Safe: No module named 'none'"),
     (["--card", "none", "--", "{tty}"], "none is not MODULE:CLASS"),
     ([*SAFE, "--", "true"], "neither {reader} nor {tty}"),
     ([*SAFE, "--", "true", "{tty}"], "without a fault it sends no command"),
     ([*SAFE, "--", *TERMINAL, "chain", ""], "without a fault it is failed: exit status 1"),
     ([*SAFE, "--limit", "1", "--", "sh", "-c", "sleep 9", "{tty}"],
      "without a fault it is hung: no end"),
     *(([f"--{it}", "1", "--", "true", "{tty}"], f"--{it} needs --card")
       for it in ("keep", "most", "expect"))],
)
def test_what_can_not_be_tried(capsys, words, said):
    assert main(words) == 2 and said in capsys.readouterr().err


@pytest.mark.parametrize("option", ["--most=0", "--most=1.5", "--most=x", "--before='", "--seed=x"])
def test_options_that_are_refused(capsys, option):
    """Nothing that was tried is no success."""
    with pytest.raises(SystemExit) as why:
        main([*SAFE, option, *JOB])
    said = f"argument {option.split('=')[0]}: "
    assert why.value.code == 2 and said in capsys.readouterr().err


def test_the_list(capsys):
    assert main([*SAFE, "--list"]) == 0
    shown = capsys.readouterr().out.split("\n\n")
    assert len(shown) == len(rows())
    for text in ("mute\nA good terminal reports it, after the waiting time.\nISO/IEC 7816-3, ",
                 "status 6283, at A4\nIt may pass.\nISO/IEC 7816-4, "):
        assert any(it.startswith(text) for it in shown)
