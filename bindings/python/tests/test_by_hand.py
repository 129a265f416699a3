"""Tests trials of a terminal that is no program. A person lets it do its job, and types what it
showed: here that is a class, which talks to the card over the other end of a pseudo terminal."""

import io
import json
import os
import pty
import select
import sys
import termios
import tty

import pytest
from galliumtoad.trials import by_hand, main
from galliumtoad.trials.trial import Trial

SELECT, VERIFY, READ = (bytes.fromhex(it) for it in (
    "00A4040005A000000003", "002000800431323334", "00B0000006"))


class Person:
    """What is typed: an answer after each job."""

    def __init__(self, says=lambda status, shown: f"ok {shown}" if shown else f"error {status}"):
        self.line, theirs = pty.openpty()
        tty.setraw(theirs)
        self.theirs = theirs
        self.says = says
        self.jobs = 0

    def change_rate(self):
        """A pseudo terminal has no parity. The system takes one that is set there only along with
        other changes."""
        state = termios.tcgetattr(self.theirs)
        state[4] = state[5] = termios.B1200
        termios.tcsetattr(self.theirs, termios.TCSANOW, state)

    def read(self, count):
        found = b""
        while len(found) < count and select.select([self.line], [], [], 30)[0]:
            found += os.read(self.line, count - len(found))
        return found

    def tpdu(self, tpdu, size=0):
        """The data of a response and the status."""
        os.write(self.line, tpdu[:5])
        first = self.read(1)
        if first[0] >> 4 in (6, 9):
            return b"", (first + self.read(1)).hex()
        if first != tpdu[1:2]:
            return b"", "no status"
        os.write(self.line, tpdu[5:])
        answer = self.read(size + 2)
        return answer[:-2], answer[-2:].hex()

    def readline(self):
        self.jobs += 1
        assert self.read(2) == b"\x3b\x00"
        self.change_rate()
        for tpdu in (SELECT, VERIFY):
            if (status := self.tpdu(tpdu)[1]) != "9000":
                return self.says(status, "") + "\n"
        return self.says("", self.tpdu(READ, 6)[0][3:].decode()) + "\n"


def tried(monkeypatch, tmp_path, person, *words):
    """The exit status, and the verdicts."""
    monkeypatch.setattr(sys, "stdin", person)
    made = tmp_path / "made.json"
    status = main(["--card", "any_cards:Safe", "--by-hand", "--tty", os.ttyname(person.theirs),
                   "--json", str(made), *words])
    return status, {it["name"]: it["verdict"] for it in json.loads(made.read_text() or "[]")}


def test_a_terminal_by_hand(monkeypatch, tmp_path, capsys):
    """A card for each trial, at the same tty."""
    person = Person()
    status, found = tried(monkeypatch, tmp_path, person, "--only", "command 2 refuse")
    faults = [f"command 2 refuse {it}" for it in ("6A82", "6982", "6F00")]
    assert (status, found) == (0, {"no fault": "right", **dict.fromkeys(faults, "told")})
    assert person.jobs == 5
    asks = [it for it in capsys.readouterr().err.splitlines() if "the card is in the reader" in it]
    assert [it.partition(":")[0] for it in asks] == ["no fault", "no fault", *faults]


def test_a_terminal_that_hides_an_error(monkeypatch, tmp_path):
    person = Person(lambda status, shown: "ok JOE")
    assert tried(monkeypatch, tmp_path, person, "--only", "command 2 refuse 6982") == (
        1, {"no fault": "right", "command 2 refuse 6982": "wrong"})


def test_there_is_no_echo(monkeypatch, tmp_path):
    """So no trial has its faults. Those of characters are there."""
    person = Person()
    assert tried(monkeypatch, tmp_path, person, "--only", "echo")[0] == 2
    status, found = tried(monkeypatch, tmp_path, Person(), "--only", "command 2 procedure")
    assert (status, found["command 2 procedure 33"]) == (0, "told")


@pytest.mark.parametrize(
    ("typed", "status", "output"),
    [("ok JOE", 0, "JOE"), ("OK\n", 0, ""), (" ok  a  b ", 0, "a  b"), ("error 6982", 1, "6982"),
     ("hung", None, ""), ("crashed", -1, ""), ("okay\nyes\nerror", 1, "")])
def test_what_is_typed(monkeypatch, typed, status, output):
    monkeypatch.setattr(sys, "stdin", io.StringIO(typed))
    assert by_hand.asked(Trial("a", "", "succeeds", "b")) == (status, output)


def test_words(monkeypatch, capsys):
    for words in (["--by-hand"], ["--by-hand", "--tty", "/none", "--", "true", "{tty}"],
                  ["--by-hand", "--tty", "/none", "--jobs", "2"]):
        assert main(words) == 2
        assert "--by-hand needs --tty, no TERMINAL, and no --jobs" in capsys.readouterr().err
    monkeypatch.setattr(sys, "stdin", io.StringIO(""))
    person = Person()
    assert main(["--by-hand", "--tty", os.ttyname(person.theirs)]) == 2
    assert capsys.readouterr().err.endswith("--by-hand: the input has ended\n")
    monkeypatch.setattr(sys, "stdin", io.StringIO("ok"))
    assert main(["--by-hand", "--tty", "/none"]) == 2
    assert "No such file" in capsys.readouterr().err
