"""Looks at what trace_explain shows of the traces that gt_serial and serial_card print with -v at
T=1. Each command, response and answer is that of the dialogue."""

import json
import subprocess
from functools import cache
from pathlib import Path

import t1_card

TOP = Path(__file__).resolve().parents[2]


@cache
def program():
    built = subprocess.run([TOP / "checks/built", "trace_explain"], capture_output=True, check=True)
    return built.stdout.decode().strip()


def shown(trace):
    """Each command that trace_explain shows, with its response, and each note."""
    run = subprocess.run([program(), "--json"], input=trace.encode(), capture_output=True,
                         check=False)
    assert run.returncode == 0 and not run.stderr, f"{run.stderr!r}, in {trace}"
    for it in map(json.loads, run.stdout.splitlines()):
        if it["type"] == "tpdu":
            parts = [it.get(part, "") for part in ("cla", "ins", "p1", "p2", "p3", "sent")]
            le = f"{it['le'] % 256:02X}" if "le" in it else ""
            yield f"{''.join(parts)}{le} {it['received']}{it['status']}"
        elif it["type"] == "note":
            yield it["text"]


def wanted(log, has_answers):
    """The same by the commands that the card has carried out. With `has_answers` a line of
    gt_serial follows the last command of each operation."""
    objects = t1_card.Objects()
    data = ""
    for apdu in log:
        response = objects.carry_out(apdu).hex().upper()
        yield f"{apdu.hex().upper()} {response}"
        data += response[:-4]
        if has_answers and apdu[0] == 0 and response.endswith("9000"):
            yield f"= 9000 {data}".rstrip()
            data = ""


def look(trace, log, has_answers, misses):
    """The trace shows the first commands of this log, with their answers. It may miss at most
    `misses` of the lines at the end."""
    found = list(shown(trace))
    lines = list(wanted(log, has_answers))
    for one, other in zip(found, lines):
        assert one == other, f"{one}, and not {other}, in {trace}"
    assert 0 <= len(lines) - len(found) <= misses, f"{len(found)} of {len(lines)} lines of {trace}"
