"""Turns the scripts of the book of examples into what gt_pcsc can run, for try_pcsc.

A table has the script's lines for the card, with all bytes written out. The operations are those
up to the first reset, without plans, since these are for characters. The answers are those of the
script's output. An operation that card_trace does not begin, since the card is busy, is left
out."""

import re
from pathlib import Path

BOOK = Path(__file__).resolve().parent.parent.parent.parent / "examples"


def parts_of_script(script):
    """The table of a script, its operations and their answers."""
    lines = [line.split() for line in script.read_text().splitlines() if line[:1] not in ("", "#")]
    answers = re.findall(r"^(= .*|! card busy)$", script.with_suffix(".out").read_text(), re.M)
    table, operations, wanted = "", "", ""
    for words in lines:
        if words[0] in ("app", "object", "locked"):
            byte, times, count = words[-1].partition("*")
            table += " ".join(words[:-1]) + f" {byte * int(count) if times else byte}\n"
        elif words[0] in ("select", "get", "put", "send"):
            answer = answers.pop(0)
            if answer.startswith("= "):
                operations += " ".join(words) + "\n"
                wanted += answer + "\n"
        elif words[0] == "reset":
            break
    return table, operations, wanted


def scripts():
    """Each script: its name, and its parts."""
    for script in sorted(BOOK.rglob("*.play")):
        yield str(script.relative_to(BOOK)), *parts_of_script(script)
