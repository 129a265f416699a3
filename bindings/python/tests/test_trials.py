"""Tests the program `galliumtoad.trials` with terminals that are good, or bad in a known way."""

import contextlib
import html
import json
import re
import resource
import signal
import subprocess
import sys
import threading
import time
from pathlib import Path

import pytest
from galliumtoad.trials import engine, fixed, main, program
from galliumtoad.trials.fixed import VALUE, FixedJob, FixedRun
from galliumtoad.trials.trial import Trial
from test_bad_terminals import JOB, tried
from waiting import wait_until


def with_put(does, *pieces):
    """A run whose card took a put in these pieces, and answered a get."""
    it = FixedRun(Trial("a", "command 9, mute", does, "b"), 0)
    it.whole(bytes.fromhex("00A4040007A0000000031010"))
    for at, piece in enumerate(pieces, 1):
        it.whole(bytes([0 if at == len(pieces) else 16, 0xDA, 0, 0x51, len(piece)]) + piece)
    it.commands.clear()
    answer = it.whole(bytes.fromhex("00CA005100"))
    while answer[-2] in (0x61, 0x6C):
        header = "00C00000" if answer[-2] == 0x61 else "00CA0051"
        answer = it.whole(bytes.fromhex(header) + answer[-1:])
    return it


OWN = [VALUE[:255], VALUE[255:510], VALUE[510:]]
FIRST = VALUE[:255]
LAST = VALUE[510:]
OTHERS = [[b"A"], [FIRST], [LAST], [FIRST, *OWN]]  # what it stored is in the last one
EITHER = "succeeds or reports"
PRINTS = "prints what it read"


@pytest.mark.parametrize(
    ("does", "pieces", "output", "verdict"),
    [("reports", OWN, VALUE, "wrong"), ("reports", OWN, b"", "wrong"),
     *((does, *row) for does in ("succeeds", EITHER) for row in [
         (OWN, VALUE, "right"), (OWN, VALUE[:-1], "wrong"), (OWN, b"", "wrong"),
         (OWN[:2], VALUE, "wrong"), (OWN[:2], b"".join(OWN[:2]), "wrong")]),
     *((PRINTS, pieces, b"".join(pieces), "right") for pieces in [OWN, *OTHERS]),
     *((PRINTS, pieces, output, "wrong") for output in (VALUE, b"") for pieces in OTHERS),
     (PRINTS, [FIRST], FIRST + VALUE, "wrong"), (PRINTS, OWN, b"", "wrong"),
     (PRINTS, [FIRST, *OWN], FIRST + VALUE + VALUE, "wrong")],
    ids=lambda it: it if isinstance(it, str) else str(len(it)),
)
def test_verdicts(does, pieces, output, verdict):
    it = with_put(does, *pieces)
    it.struck.append("struck")
    for text in (output.hex(), f"it is\n{output.hex(' ').upper()}", output.hex(":")):
        assert it.judge(0, text)[0] == verdict
        assert it.judge(None, text)[0] == "hung" and it.judge(-11, text)[0] == "crashed"
        assert it.judge(139, text)[0] == it.judge(128 + signal.NSIG - 1, text)[0] == "crashed"
        reported = "failed" if does == "succeeds" else "told"
        assert it.judge(1, text)[0] == it.judge(255, text)[0] == reported  # 255 as in Perl


@pytest.mark.parametrize("does", ["reports", "succeeds", EITHER, PRINTS])
def test_a_fault_that_did_not_strike(does):
    """Unless the terminal lied."""
    it = with_put(does, *OWN)
    assert [it.judge(status, VALUE.hex())[0] for status in (0, 1)] == ["unmet", "unmet"]
    assert it.judge(0, "")[0] == "wrong"


def test_what_select_brought_is_no_value():
    it = FixedRun(fixed.trials()[0], 0)
    choose = "00A4040007A0000000031010"
    for tpdu, expected in [(choose, "6a82"), (choose, "610b"),
                           ("00C000000B", "6f098407a00000000310109000")]:
        assert it.whole(bytes.fromhex(tpdu)).hex() == expected
    assert it.judge(1, "8407A0000000031010")[1].startswith("exit status 1; printed no value; ")


PIECE = "10DA00510141"
OTHER = "10DA00510142"
GET = "00CA005100"
SELECT = "00A4040000"


@pytest.mark.parametrize(
    ("commands", "verdict"),
    [([GET, GET], "told"), ([PIECE, PIECE], "twice"), ([PIECE, OTHER, "DA"], "told"),
     ([PIECE, OTHER, PIECE, SELECT, PIECE], "twice"), ([PIECE, SELECT, PIECE, OTHER], "told"),
     ([PIECE, GET, PIECE], "twice")],
)
def test_what_was_sent_again(commands, verdict):
    """A get changes nothing at the card. The same piece of a put does, unless a SELECT came
    between: then the put begins again."""
    it = FixedRun(next(it for it in fixed.trials() if it.name == "select late"), 0)
    it.struck.append("struck")
    for command in commands:
        it.carried_out(bytes.fromhex(command))
    assert it.judge(1, "")[0] == verdict


def test_what_can_be_tried():
    """A reader gets whole commands; a line also what its protocol has."""
    for words, count in [(["{reader}"], 47), (["{tty}"], 58)]:
        for protocol in ("0", "1"):
            parsed = program.parser().parse_args(["--protocol", protocol, "--", "x", *words])
            job = program.job_of(parsed, program.terminal_of(parsed))
            found = job.trials()
            expected = count if words == ["{reader}"] or protocol == "0" else 54
            assert len(found) == expected
            assert {job.run(it).atr[1] for it in found} == {0x80 * int(protocol)}
    assert program.parser().parse_args(["x"]).protocol == "0"


def test_other_words(capsys):
    assert main(["--", "true"]) == 2 and "neither" in capsys.readouterr().err
    for words in ("--limit=nan", "--limit=1e1", "--limit=\u0661", "--protocol=\u0661"):
        with pytest.raises(SystemExit):
            main([words, "--", "true", "{tty}"])
    for limit in ("0.09", "86401"):
        assert main(["--limit", limit, "--", "true", "{tty}"]) == 2
        assert f"--limit is {limit}" in capsys.readouterr().err.replace(".0,", ",")
    assert main(["--list"]) == 0 and capsys.readouterr().out.count("\n\n") == 64
    with open("/dev/full", "w") as full, contextlib.redirect_stdout(full):
        assert main(["--list"]) == 2 and "No space left" in capsys.readouterr().err
    assert main(["--vpcd", "localhost:1", "--", "{reader}"]) == 2
    assert main(["--only", "late", "--", "/none/at/all", "{tty}"]) == 2
    for only, place in (("lat e", "{tty}"), ("byte lost", "{reader}")):  # a typo is no success
        assert main(["--only", only, "--", "true", place]) == 2
        assert f"no trial that can happen there has '{only}' in" in capsys.readouterr().err


def test_a_short_limit(capsys, monkeypatch):
    """A mute card takes a reader ten seconds, so a shorter limit looks like a terminal's fault. The
    program says so before it runs."""
    monkeypatch.setattr(FixedJob, "begin",
                        lambda *_: print("it runs", file=sys.stderr) or 1 / 0)
    for limit, says in (("9.9", "--limit 9.9: a terminal that waits for a mute card may look "
                         "hung, since a reader waits 10 seconds\n"), ("10", "")):
        with pytest.raises(ZeroDivisionError):
            main(["--limit", limit, "--", "true", "{reader}"])
        assert capsys.readouterr().err == f"{says}it runs\n"


@pytest.mark.parametrize("option", ["--json", "--html"])
def test_a_file_of_results_is_opened_before_the_run(tmp_path, monkeypatch, capsys, option):
    """Then one that can't be written is named. A run that fails at its start changes none."""
    (tmp_path / "kept").write_text("earlier results")
    words = [option, str(tmp_path / "kept"), "--only", "lost at", "--", "/none/at/all", "{tty}"]
    assert main(words) == 2 and (tmp_path / "kept").read_text() == "earlier results"
    monkeypatch.setattr(fixed, "tried", lambda *_: pytest.fail("it runs"))
    assert main([option, str(tmp_path), "--", "true", "{tty}"]) == 2
    assert "Is a directory" in capsys.readouterr().err


def run(tmp_path, only, mistake="", limit=20):
    """What a terminal makes of one trial, the exit status, and the page."""
    made = tmp_path / "made.json"
    begun = time.monotonic()
    words = ["--only", only, "--limit", str(limit), "--json", str(made)]
    status = main([*words, "--html", str(tmp_path / "made.html"), "--", *JOB, mistake])
    assert time.monotonic() < begun + 2 * limit + 23  # on a busy machine
    first, found = json.loads(made.read_text())
    assert (first["name"], first["verdict"], first["faults"]) == ("no fault", "right", "")
    return found, status, (tmp_path / "made.html").read_text()


@pytest.mark.parametrize(
    ("only", "mistake", "verdict", "happened"),
    [("put refused in the middle", "", "told",
      "exit status 1; printed no value; the card holds no value"),
     ("put without answer at the end", "", "told",
      "exit status 1; printed no value; the card holds the value"),
     ("select with a wrong template", "", "right",
      "exit status 0; printed what it read; the card holds the value"),
     ("put forgotten in the middle", "", "right",
      "exit status 0; printed what it read; the card holds another value"),
     ("put forgotten in the middle", "the value printed that was put", "wrong",
      "exit status 0; printed the value; the card holds another value"),
     ("nulls before", "NULL not known", "failed",
      "exit status 1; printed no value; the card holds no value"),
     ("select without answer", "no limit of time", "hung",
      "no end; printed no value; the card holds no value")],
)
def test_results(tmp_path, capsys, only, mistake, verdict, happened):
    """The text shows what the files do."""
    found, status, page = run(tmp_path, only, mistake, limit=3 if verdict == "hung" else 20)
    listed = next(it for it in fixed.trials() if it.name.startswith(only))
    assert (found["verdict"], found["happened"]) == (verdict, happened)
    assert (found["expected"], found["clause"]) == (listed.expected, listed.clause)
    assert status == (verdict not in ("right", "told"))
    said = f"; said: {found['said']}" if found["said"] else ""
    assert (f"\n{verdict:7}  {found['name']}\n         expected: {listed.expected}\n"
            f"         happened: {happened}{said}\n         clause: {listed.clause}\n"
            ) in capsys.readouterr().out
    for cell in (verdict, happened + said, listed.expected, listed.clause):
        assert f"<td>{html.escape(cell)}" in page
    assert not re.search("[0-9A-F]{100}", found["said"].upper())  # a value is no message
    assert (f'<tr class="{verdict}">' in page) == (status == 1)


def test_the_last_line_controls_no_terminal(tmp_path, capsys):
    found, _, _ = run(tmp_path, "select refused", "a control character printed")
    assert found["said"] == "6A82 at command 1\\x1b"
    assert "; said: 6A82 at command 1\\x1b\n" in capsys.readouterr().out


def test_a_fault_that_does_not_strike_is_a_failure(tmp_path, capsys):
    """Unless the list says that a good terminal may miss it, and it succeeded."""
    _, status, _ = run(tmp_path, "select with a wrong template", "no template fetched")
    assert status == 0 and "1 right\n* the fault can't strike" in capsys.readouterr().out
    it = Trial("a", "command 9, mute", "reports", "b", may_miss=True)
    for it.may_miss, it.status, is_bad in [(True, 0, False), (True, 1, True), (False, 0, True)]:
        assert it.is_bad == is_bad


LEAVES = "setsid sleep 30 & echo 'it says \u00fc\x1b'; exec sleep 30"


def test_the_fixed_job_has_the_home_of_its_user(capsys, monkeypatch):
    monkeypatch.setenv("HOME", "/none/at/all")
    assert fails(["sh", "-c", "echo $HOME; ls {tmp}; exit 1"]) == 2
    assert "\n/none/at/all\n\nwithout a fault it is failed" in capsys.readouterr().err


def fails(words, limit="2"):
    """The status of trials with a terminal that fails without a fault."""
    return main(["--only", "select refused", "--limit", limit, "--", *words, "{tty}"])


def test_a_process_that_leaves_its_group_holds_nothing_up(capsys):
    """It keeps the output open, whose bytes may be of any encoding."""
    assert fails(["sh", "-c", LEAVES]) == 2
    assert capsys.readouterr().err.count("it says \\xc3\\xbc\\x1b\n") == 1


@pytest.mark.parametrize(
    ("job", "said"), [("exit 1", "failed"), ("echo no such option; exit 2", "no such option"),
                      ("exit 0", "wrong"), ("sleep 30", "hung"), ("kill -9 $$", "crashed")])
def test_nothing_that_was_tried_is_no_success(capsys, job, said):
    assert fails(["sh", "-c", job]) == 2
    found = capsys.readouterr()
    assert said in found.err and "\nwithout a fault it is " in found.err
    assert not found.out


def test_the_commands_are_those_of_the_faults(capsys):
    """A fault of command 5 strikes a GET DATA."""
    assert main(["--only", "get refused", "--", *JOB, "six pieces"]) == 2
    ins = "the INS of its commands are a4 da da da da da da ca, not a4 da da da ca\n"
    assert capsys.readouterr().err == ins


@pytest.mark.parametrize("job", ["sleep 300 & echo $! > made; wait",
                                 "sleep 300 > /dev/null 2>&1 & echo $! > made"])
def test_processes_of_a_terminal_end_with_it(tmp_path, monkeypatch, job):
    monkeypatch.chdir(tmp_path)
    assert fails(["sh", "-c", job]) == 2
    number = Path("made").read_text().strip()
    wait_until(lambda: not Path(f"/proc/{number}/exe").exists())


def test_a_line_that_nobody_reads_holds_nothing_up(monkeypatch):
    """A process that is left may keep it open, and the card waits there with its echo."""
    begun = time.monotonic()
    is_read = threading.Event()
    monkeypatch.setattr(engine, "serve_pty", lambda run, has_echo, tell, **_: (
        tell("/dev/null"), is_read.wait(60)))
    assert main(["--only", "select refused", "--", "true", "{tty}"]) == 2
    assert time.monotonic() < begun + 50
    is_read.set()


def test_a_terminal_that_prints_without_end_takes_no_memory(capsys):
    before = resource.getrusage(resource.RUSAGE_SELF).ru_maxrss
    assert fails(["yes"]) == 2
    assert "hung" in (said := capsys.readouterr().err) and len(said) < 3000
    assert resource.getrusage(resource.RUSAGE_SELF).ru_maxrss < before + (1 << 18)


def test_an_interrupt_ends_the_terminal_too(tmp_path):
    """Once the program that starts it knows its number."""
    job = "sleep 2; echo $$ > made; sleep 100"
    words = ["--only", "select refused", "--", "sh", "-c", job, "{tty}"]
    run = subprocess.Popen([sys.executable, "-m", "galliumtoad.trials", *words], cwd=tmp_path,
                           stderr=subprocess.PIPE, text=True, preexec_fn=lambda: signal.signal(
                               signal.SIGINT, signal.default_int_handler))
    wait_until(lambda: (tmp_path / "made").exists() and (tmp_path / "made").read_text())
    run.send_signal(signal.SIGINT)
    assert run.communicate(timeout=60)[1] == "interrupted\n" and run.returncode == 2
    number = (tmp_path / "made").read_text().strip()
    wait_until(lambda: not Path(f"/proc/{number}/exe").exists())


# Parts of names, so that each trial has one.
PARTS = ["select", "put", "get", "byte", "status", "echo", "nulls"]
BLOCKS = ["block", "extension", "field", "abort", "refused"]


def test_each_trial_is_in_a_part():
    assert all(any(part in it.name for part in [*PARTS, *BLOCKS]) for it in fixed.trials())


@pytest.mark.parametrize("part", PARTS)
def test_a_correct_terminal(tmp_path, part):
    status, found = tried(tmp_path, part, "")
    assert status == 0 and set(found.values()) <= {"right", "told"} and len(found) > 1


@pytest.mark.parametrize("part", BLOCKS)
def test_a_correct_terminal_at_t1(tmp_path, part):
    status, found = tried(tmp_path, part, "", "--protocol", "1")
    assert status == 0 and len(found) > 1


def test_two_more_correct_terminals(tmp_path):
    """One fetches no template, so some faults do not strike. One begins again after a reset."""
    status, found = tried(tmp_path, "select with", "no template fetched")
    assert status == 0 and found["select with too much"] == "unmet"
    status, found = tried(tmp_path, "reset", "begins again after a reset")
    assert status == 0 and found["put with a reset in the middle"] == "right"
