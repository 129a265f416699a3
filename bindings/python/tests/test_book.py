"""Runs the plays of the book through the package. Each prints its stored output."""

import re
from itertools import takewhile
from pathlib import Path

import pytest
from galliumtoad import CallError, Card, Get, Select, Send, Session
from galliumtoad.batch.script import Script
from galliumtoad.cards import read_table
from room import steps_of

BOOK = Path(__file__).resolve().parents[3] / "examples"
PLAYS = sorted(BOOK.rglob("*.play"))


def built(script, folder):
    """Builds the card of the first lines of a script. Returns it, and the words of the others."""
    lines = [it for it in script.read_text().splitlines() if it.strip() and it[0] != "#"]
    own = [*takewhile(lambda it: it.split()[0] in ("app", "object", "locked"), lines)]
    table = re.sub(r"(..)\*(\d+)", lambda it: it[1] * int(it[2]), "\n".join(own))
    (folder / "table").write_text(table)
    return read_table(folder / "table")[0], [it.split() for it in lines[len(own) :]]


def table(holder):
    """The output of `table`."""
    for aid in holder.applications:
        yield f"app {aid.hex().upper()}"
        for tag, data, is_locked in holder.entries(aid):
            shown = data.hex().upper() or "-"
            yield f"  {tag:X} {shown}" + (" locked" if is_locked else "")


def dialogue(session):
    """The characters of the last operation, a line for each turn."""
    turns = []
    for is_card, byte in session.heard():
        if not turns or turns[-1][0] != is_card:
            turns.append((is_card, b""))
        turns[-1] = (is_card, turns[-1][1] + bytes([byte]))
    return [f"{'<' if is_card else '>'} {sent.hex().upper()}" for is_card, sent in turns]


def played(script, folder):
    """The output of `card_trace play` for a script."""
    (card, words), plans = built(script, folder), []
    with Session(card) as session:
        session.listen()
        for line in words:
            if line[0] == "plan":
                plans.append((line[1].replace("-", ""), int(line[2])))
            elif line[0] == "reset":
                session.reset()
                yield "reset"
            elif line[0] == "table":
                yield from table(session)
            else:
                [step] = steps_of(Script("", " ".join(line), []), {})
                yield from carried_out(session, step.operation, plans)
                plans = []


def carried_out(session, asked, plans):
    if not (session.is_idle or isinstance(asked, Send)):
        yield "! card busy"
        return
    for steps, cut in plans:
        session.plan(steps, cut)
    status, data = session.run(asked)
    yield from dialogue(session)
    yield f"= {status:04X} {data.hex().upper()}".rstrip()


@pytest.mark.parametrize("script", PLAYS, ids=lambda it: str(it.relative_to(BOOK)))
def test_play(tmp_path, script):
    assert list(played(script, tmp_path)) == script.with_suffix(".out").read_text().splitlines()


def test_a_busy_card_is_named():
    with Session(Card({bytes(5): {}})) as session:
        session.run(Select(bytes(5)))
        assert session.run(Send(bytes.fromhex("10DA5F2001AA"))).status.is_ok
        with pytest.raises(CallError) as error:
            session.run(Get(0x5F20))
        assert error.value.name == "GT_BUSY"
