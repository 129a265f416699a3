"""Tests that the trials find a terminal with one mistake, by a trial with a fitting name. That one
without a mistake passes all is in test_trials.py."""

import json
import sys
from pathlib import Path

import pytest
from galliumtoad.trials import main

JOB = [sys.executable, str(Path(__file__).with_name("planted.py"))]
JOB += ["{tty}", "{aid}", "{tag}", "{value}"]


def tried(tmp_path, only, mistake, *words, limit=30):
    """The exit status of the trials, and each one's verdict."""
    made = tmp_path / "made.json"
    words = [*words, "--only", only, "--limit", str(limit), "--json", str(made)]
    status = main([*words, "--", *JOB, mistake])
    return status, {it["name"]: it["verdict"] for it in json.loads(made.read_text() or "[]")}


# A mistake, a trial that finds it, and its verdict.
MISTAKES = [
    ("no status", "select warns", "wrong"),
    ("no status", "put refused in the middle", "wrong"),
    ("no status", "get with an error", "wrong"),
    ("no status of select", "select refused", "wrong"),
    ("no status of select", "select warns", "wrong"),
    ("no status of the put", "put refused at the first piece", "wrong"),
    ("no status of the put", "put warns at the end", "wrong"),
    ("no status of the get", "get with an error", "wrong"),
    ("no status of the get", "get that may be damaged", "wrong"),
    ("no status but of the last piece", "put refused in the middle", "wrong"),
    ("no status but of the last piece", "put warns at the first piece", "wrong"),
    ("no status but of the first piece", "put refused in the middle", "wrong"),
    ("no status but of the first piece", "put warns in the middle", "wrong"),
    ("a warning", "select warns", "wrong"),
    ("a warning", "put warns at the end", "wrong"),
    ("a warning", "get that may be damaged", "wrong"),
    ("any 9XXX", "put with a reserved status", "wrong"),
    ("any 90XX", "put with a reserved status", "wrong"),
    ("any XX00", "put warns at the end", "wrong"),
    ("6281", "get that may be damaged", "wrong"),
    ("any 68XX", "put that must be last", "wrong"),
    ("any 6XXX but 69, 6A", "put without chaining", "wrong"),
    ("any 6XXX but 69, 6A", "get with an error", "wrong"),
    ("the tag not compared", "get with a wrong tag", "wrong"),
    ("the length not compared", "get with a wrong length", "wrong"),
    ("a cut value", "get with a wrong length", "wrong"),
    ("a cut value", "get cut", "wrong"),
    ("too much taken", "get with too much", "wrong"),
    ("the value printed that was put", "get with a wrong bit", "wrong"),
    ("the value printed that was put", "get of another value", "wrong"),
    ("the value printed that was put", "put forgotten in the middle", "wrong"),
    ("the value printed that was put", "put twice at the end", "wrong"),
    ("the first part taken", "get refused at its second part", "wrong"),
    ("a complement taken for INS", "procedure byte for one byte", "wrong"),
    ("a complement taken for INS", "put of one byte, and of the rest", "failed"),
    ("a complement taken for INS", "get of one byte, and of the rest", "failed"),
    ("any procedure byte", "procedure byte that is invalid", "wrong"),
    ("NULL not known", "nulls before the answer", "failed"),
    ("the echo of a header not compared", "echo that differs", "wrong"),
    ("the echo of data not compared", "echo of data that differs", "wrong"),
    ("one NULL at most", "nulls before the answer", "failed"),
    ("an early status", "status before the data", "wrong"),
    ("6CXX ignored", "get with another length", "failed"),
    ("6CXX for ever", "get that asks for a length again and again", "hung"),
    ("61XX for ever", "get without an end", "hung"),
    ("a piece sent again", "put with another length", "twice"),
    ("a refused piece sent again", "put refused in the middle", "wrong"),
    ("a warned piece sent again", "put warns in the middle", "wrong"),
    ("goes on after a reset", "put with a reset in the middle", "wrong"),
    ("no limit of time", "select without answer", "hung"),
    ("crashes at a refusal", "select refused", "crashed"),
    ("exit 0 always", "select refused", "wrong"),
    ("exit 0 always", "put without answer at the end", "wrong"),
    ("a wrong check", "block with a wrong check", "wrong"),
    ("a lost block not asked for", "block lost", "failed"),
    ("a second block not dropped", "block twice", "failed"),
    ("no more time granted", "extension of 255", "failed"),
]
# The same of the trials of a line.
OF_LINES = [
    ("any answer to reset taken", "answer without TS", "wrong"),
    ("the check byte not compared", "answer with a wrong TCK", "wrong"),
    ("a short waiting time", "procedure byte that is late", "failed"),
    ("a long waiting time", "procedure byte that is too late", "wrong"),
    ("a long waiting time", "byte of a response that is too late", "wrong"),
    ("INS with another lowest bit taken", "procedure byte of another INS at a put", "wrong"),
    ("SW1 alone taken", "SW1 alone after a put", "wrong"),
    ("one complement known", "get byte by byte", "failed"),
    ("one NULL at most", "put with NULL before each byte", "failed"),
    ("a complement taken for INS", "put of some bytes alone", "failed"),
    ("an R-block taken for the end", "block that the card says was damaged", "failed"),
    ("another field size ignored", "fields of 1 byte in a chain", "failed"),
    ("no more time granted", "extension of 1", "failed"),
    ("a second block not dropped", "block after the end", "failed"),
    ("PPS not compared", "PPS with another PPS1", "wrong"),
    ("the rate not changed", "PPS that changes the rate", "failed"),
    ("no limit of time", "gone before a procedure byte", "hung"),
    ("exit 0 always", "gone within a status", "wrong"),
]
AT_T1 = ["block", "extension", "get with too much"]  # begins the name of such a trial


@pytest.mark.parametrize(("mistake", "name", "verdict"), MISTAKES)
def test_a_mistake_is_found(tmp_path, mistake, name, verdict):
    t = "1" if name.startswith(tuple(AT_T1)) else "0"
    limit = 12 if verdict == "hung" else 30
    status, found = tried(tmp_path, name, mistake, "--protocol", t, limit=limit)
    assert (status, found["no fault"], found[name]) == (1, "right", verdict)


@pytest.mark.parametrize(("mistake", "name", "verdict"), OF_LINES)
def test_a_mistake_at_a_line_is_found(tmp_path, mistake, name, verdict):
    limit = 12 if verdict == "hung" else 60
    words = ["--lines", "--slack", "0.5"]
    status, found = tried(tmp_path, name, mistake, *words, limit=limit)
    assert (status, found["no fault"], found[name]) == (1, "right", verdict)


GOOD = ["procedure byte that is late", "get byte by byte", "extension of 1", "fields of 1 byte",
        "PPS that changes the rate", "PPS with another PPS1", "answer with a wrong TCK"]


@pytest.mark.parametrize("name", GOOD)
def test_a_good_terminal_at_a_line(tmp_path, name):
    """The same without a mistake."""
    assert tried(tmp_path, name, "", "--lines", "--slack", "0.5", limit=60)[0] == 0


@pytest.mark.parametrize(
    "mistake", ["61XX ignored", "one 61XX followed", "no chaining bit", "no select", "puts twice",
                "exit 1 always", "hangs", "crashes"])
def test_what_fails_without_a_fault_is_not_tried(tmp_path, capsys, mistake):
    """Nor is it judged: such mistakes need no fault."""
    assert tried(tmp_path, "refused", mistake, limit=2) == (2, {})
    said = capsys.readouterr()
    assert "\nwithout a fault it is " in said.err and not said.out
