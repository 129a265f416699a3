"""Tests that gt_serial passes all trials of a line, and what they measure of it. Wrong parity needs
the stand-in for a tty (bindings/c/tests/standin/tty.c): a pseudo terminal has none."""

import json
import re
import subprocess
from pathlib import Path

import pytest
from galliumtoad.faults import MARKS
from galliumtoad.trials import main
from galliumtoad.trials.lines import trials

C = Path(__file__).resolve().parents[2] / "c"
JOB = ["{tty}", "select", "{aid}", "put", "{tag}", "{value}", "get", "{tag}"]
SLACK = 1.5  # seconds: a busy machine is late
OF_PARITY = [it.name for it in trials(SLACK) if MARKS in it.places]


@pytest.fixture(scope="module")
def built(tmp_path_factory):
    """The folder of gt_serial. The one for the stand-in is in `standin` below it."""
    folder = tmp_path_factory.mktemp("serial") / "build"
    names = [folder / "gt_serial", folder / "standin" / "gt_serial"]
    subprocess.run(["make", "-s", "-C", C, f"BUILD={folder}", "SANITIZE=", "CFLAGS=-O1", *names],
                   check=True, stdout=subprocess.DEVNULL)
    return folder


def tried(tmp_path, program, *words):
    """The exit status of the trials, and each one's result."""
    made = tmp_path / "made.json"
    of_terminal = ["--slack", f"{1000 * SLACK:.0f}", "--pps"]
    status = main(["--lines", "--slack", str(SLACK), "--jobs", "8", "--limit", "120",
                   "--json", str(made), *words, "--", *program, *of_terminal, *JOB])
    return status, {it["name"]: it for it in json.loads(made.read_text())}


def test_gt_serial(built, tmp_path):
    status, found = tried(tmp_path, [str(built / "gt_serial")])
    bad = {name: it["happened"] for name, it in found.items()
           if it["verdict"] not in ("right", "told")}
    assert (status, bad) == (0, {})
    assert len(found) == 1 + 126 - len(OF_PARITY)
    looks_at_figures(found)


def numbers(result):
    """How long a terminal waited, and the usual etu before a character of its own: after one of the
    card, and after its own."""
    form = r"waited ([\d.]+) s; .* \((\d+) etu\) after the card, .* \((\d+) etu\) after its own"
    waited, turn, gap = re.fullmatch(form, result["measured"]).groups()
    return float(waited), int(turn), int(gap)


def looks_at_figures(found):
    """WWT is 1 s, CWT 0.85 s and BWT 1.6 s, each with the slack. 16 etu are before a character at
    T=0, and 22 before a block. The card's last one has 10 of them. A busy machine is late."""
    for name, least in (("gone before a procedure byte", 1.0), ("SW1 alone after a put", 1.0),
                        ("block that is shorter than LEN", 0.85), ("gone within a chain", 1.6)):
        assert least + SLACK - 0.01 <= numbers(found[name])[0] < least + SLACK + 10, name
    assert found["no fault"]["measured"] == ""
    assert numbers(found["put byte by byte"])[1] >= 16 - 10
    assert numbers(found["many extensions"])[1] >= 22 - 10
    assert numbers(found["extra guard time"])[2] >= 42


def test_wrong_parity(built, tmp_path, monkeypatch):
    """The terminal gets no reset: its line has none."""
    (tmp_path / "log").touch()
    monkeypatch.setenv("STANDIN_TTY", str(tmp_path / "log"))
    program = [str(built / "standin" / "gt_serial"), "--reset", "none", "--patience", "30"]
    found = {}
    for only in ("parity", "signalled"):
        status, results = tried(tmp_path, program, "--marks", "--only", only)
        assert status == 0
        found.update(results)
    assert sorted(found) == sorted(["no fault", *OF_PARITY])
    assert {it["verdict"] for it in found.values()} <= {"right", "told"}
    assert "marks" in (tmp_path / "log").read_text()
